/* A node of a cluster that keeps values by names, as a library. Several nodes may run in one process.

   The library does no input and no output. It starts no thread, reads no clock, and has no state but its handles. A
   call takes bytes, and leaves a list of tasks: bytes to send, bytes to append to the log, a sync of the log. The
   program carries them out, in their order, before it makes the next call that handles frames.

   A whole program, but for its own sockets and files:

     struct casnode node = CASNODE_CLOSED;
     if (casnode_open(&node, cluster, cluster_length, 3, log, log_length, &where) != CASNODE_DONE) fail();
     carry_out(&node);
     while (receive(input, &length)) {
       if (casnode_handle(&node, input, length, &used, &other) != CASNODE_DONE) fail();
       carry_out(&node);
       length = drop_front(input, length, used);
     }
     casnode_close(&node);

     void carry_out(struct casnode *node) {
       for (size_t place = 0; casnode_task(node, place, &kind, &count), kind != CASNODE_NOTHING; place++) {
         if (kind == CASNODE_SYNC) { sync_log(); continue; }
         if (kind == CASNODE_CUT) { cut_log(count); continue; }
         casnode_bytes(node, place, buffer, count);
         if (kind == CASNODE_SEND) send_frames(buffer, count);
         if (kind == CASNODE_APPEND) append_to_log(buffer, count);
         if (kind == CASNODE_REPLACE) replace_log(buffer, count);
       }
     }

   FRAMES

   A frame is an array of bulk strings as in the protocol of Redis: "*2\r\n", then "$4\r\ntick\r\n" and so on. It has at
   most 1,024 strings, each of at most 16,842,752 bytes. Its first string is an address.

     to the node                       means
     client 17, strings of a command   the connection with this number sent this command. A number is never used again.
     client 17                         this connection, from which a command came, has ended
     node 3, strings                   node 3 sent this frame
     tick, numbers of nodes            time has passed, a tenth of a second or so. The numbers are those of the nodes
                                       that were heard within the last seconds, this node's own number first; without
                                       numbers, the tick does not say.

     from the node                     means
     client 17, strings                the bytes of the strings, one after another, are an answer to this connection
     client 17                         this connection is closed, after what was written to it before
     node 3, strings                   the strings go to node 3, in a frame whose first string is the address of this
                                       node

   The network may lose frames between nodes, or delay, repeat or reorder them. It may make up none and change none, and
   the program makes sure that a frame comes from the node that it names.

   WHAT THE PROGRAM PROMISES

   - It carries out the tasks in their order, and each one wholly before the next. In particular, it sends nothing that
     stands behind a sync before the sync has succeeded.
   - If it cannot carry out a task, it closes the node, and opens it again from what the log has then. It may do so at
     any moment. Of the bytes to be sent and appended, a first part may have been. Bytes that were synced have to be in
     the log; of those behind them, any first part may be, with zeros behind it.
   - A log belongs to one node with one cluster file. While a node is open, nobody else uses its log, and no other node
     of the same number runs anywhere. A log that was lost is never replaced by an older or an empty one.
   - All nodes have the same cluster file, but for the lines `later` and `ticks`.
   - A handle is zeros (CASNODE_CLOSED) before its first call. After that the program reads and writes nothing in it. It
     may move it by copying it, and then uses the copy alone. A handle stays on the thread that opened it. Other threads
     may use handles of their own at the same time. No call is made from a signal handler, or from a forked child of a
     process that has threads.
   - Pointers are not null, also where a length is 0. What a call writes to overlaps no other argument of it. A call
     keeps no pointer that it was passed.

   The library takes memory from malloc and gives it back to free, at open, and as the node grows. If memory is refused,
   a call answers CASNODE_NO_MEMORY, and never ends the program. */
#ifndef CASNODE_H
#define CASNODE_H

#include <stdbool.h>
#include <stddef.h>
#include <stdint.h>

#ifdef __cplusplus
extern "C" {
#endif

/* Where a program keeps a node. */
struct casnode {
  void *private_pointer;
  bool private_flag;
};

/* A handle without a node: struct casnode node = CASNODE_CLOSED; */
#define CASNODE_CLOSED {0, 0}

/* What a call answers. */
enum casnode_answer {
  CASNODE_DONE = 0,
  CASNODE_NO_MEMORY = 1,    /* memory was refused */
  CASNODE_BAD_FILE = 2,     /* the text is no cluster file */
  CASNODE_NO_NODE = 3,      /* the cluster file has no node of this number */
  CASNODE_OLD_FORM = 4,     /* the log was written by an older version, in another form */
  CASNODE_BAD_LOG = 5,      /* the log is damaged, or it is that of another node or another cluster */
  CASNODE_NO_MORE_IDS = 6,  /* the node was started as often as is possible (2^24 times) */
  CASNODE_NO_FRAME = 7,     /* the bytes are no frame */
  CASNODE_STOPPED = 8,      /* an earlier call of this node has failed */
  CASNODE_FAILED = 9,       /* the node cannot go on: what it has to write does not fit into a frame */
  CASNODE_NOT_OPEN = 10,    /* the handle has no node */
  CASNODE_IS_OPEN = 11,     /* the handle has a node already */
  CASNODE_BAD_BUFFER = 12,  /* the length of the buffer is not that of the task's bytes */
  CASNODE_NO_TASK = 13      /* there is no task in this place */
};

/* The kinds of tasks. */
enum casnode_kind {
  CASNODE_NOTHING = 0, /* there is no task in this place, and none behind it */
  CASNODE_SEND = 1,    /* the bytes are whole frames, to be sent to their addresses */
  CASNODE_APPEND = 2,  /* the bytes are appended to the log */
  CASNODE_SYNC = 3,    /* the log is synced, as by fdatasync; if that fails, the node is closed and not opened again
                          before somebody has looked at the disk: a later sync may succeed though bytes are lost */
  CASNODE_CUT = 4,     /* the log is cut: only its first `count` bytes stay */
  CASNODE_REPLACE = 5  /* the bytes are written to a second file, which is synced and renamed to the log, and the folder
                          is synced; see casnode_rewrite */
};

/* What `other` is where there is nothing to report. */
#define CASNODE_NO_OTHER 256

/* Opens the node of this number in a handle that has none. `text` is the text of the cluster file, and `log` all bytes
   that the node's log has; a new log has none. The tasks that follow cut off what a stop may have left at the end of
   the log, and append what says that the node was started.
   Answers CASNODE_IS_OPEN if the handle has a node; else CASNODE_BAD_FILE, and `where` is the line with the fault;
   CASNODE_NO_NODE; CASNODE_OLD_FORM; CASNODE_BAD_LOG, and `where` is how many bytes come before the bad entry;
   CASNODE_NO_MORE_IDS; or CASNODE_NO_MEMORY. Then the handle is as it was, and the log has to be left as it is. `where`
   is as it was after CASNODE_DONE and CASNODE_IS_OPEN; after other answers it may be 0. */
uint8_t casnode_open(struct casnode *node, const uint8_t *text, size_t text_length, uint8_t number,
                     const uint8_t *log, size_t log_length, uint64_t *where);

/* Handles the frames with which `input` begins, one after another: at most 1,024, and fewer once a mebibyte of bytes
   waits to be sent or written. It sets `used` to the number of bytes that they have. The program hands over the other
   bytes again, followed by those that come next. If `used` is 0, the input has no whole frame at its front.
   `other` is the number of a node from which a message came in an earlier call and which has another cluster file, so
   that neither takes the other's messages, or else CASNODE_NO_OTHER. An operator should know; each is told once.
   What is to be done for the frames are the tasks of the node then, in place of those of before, which have been
   carried out.
   Answers CASNODE_NOT_OPEN; CASNODE_STOPPED; CASNODE_NO_FRAME, CASNODE_NO_MORE_IDS, CASNODE_FAILED or
   CASNODE_NO_MEMORY. With the last four the node has stopped, and got no new tasks: the program closes it, and opens it
   again from the log. `used` and `other` are then as they were, as after the first two. */
uint8_t casnode_handle(struct casnode *node, const uint8_t *input, size_t input_length, size_t *used,
                       uint16_t *other);

/* Says what the task in this place is, from 0: sets `kind` to a casnode_kind, and `count` to the number of its bytes;
   of CASNODE_CUT, to how many bytes of the log stay. Nothing changes, so a place may be asked for again.
   Answers CASNODE_NOT_OPEN if the handle has no node. */
uint8_t casnode_task(struct casnode *node, size_t place, uint8_t *kind, uint64_t *count);

/* Writes the bytes of the task in this place to `out`. A sync and a cut have none.
   Answers CASNODE_NOT_OPEN; else CASNODE_NO_TASK; else CASNODE_BAD_BUFFER if `out_length` is not the number of the
   bytes. Then `out` is as it was. */
uint8_t casnode_bytes(struct casnode *node, size_t place, uint8_t *out, size_t out_length);

/* Sets `length` to the number of bytes that the log has once all tasks are carried out.
   Answers CASNODE_NOT_OPEN if the handle has no node. */
uint8_t casnode_log_length(struct casnode *node, uint64_t *length);

/* Sets `worth` to 1 if the log has grown so much, since this was last asked, that it is worth writing it anew, and else
   to 0. It may be asked after each round: it takes time only if the log has doubled and has 16 MiB more.
   Answers CASNODE_NOT_OPEN if the handle has no node. */
uint8_t casnode_should_rewrite(struct casnode *node, uint8_t *worth);

/* Writes the log anew, once all tasks of the node are carried out. If this can be done now, it sets `given` to 1, and
   the node's task then is CASNODE_REPLACE: the bytes are a shorter log, which gives back what the node keeps.
   Otherwise, because a move is open at this node, it sets `given` to 0, and nothing changes: the node still has the
   tasks of before, which are not to be carried out again.
   If the second file cannot be written or renamed, the program removes it, calls casnode_keep_log, and goes on with the
   old log. If it was renamed, but the folder was not synced, the program closes the node.
   Answers CASNODE_NOT_OPEN; else CASNODE_STOPPED; else CASNODE_NO_MEMORY or CASNODE_FAILED. Then nothing changes. */
uint8_t casnode_rewrite(struct casnode *node, uint8_t *given);

/* Goes on with the old log after casnode_rewrite, because the new one was not put in its place, and sets `kept` to 1.
   The node has no task then. Sets it to 0 if frames were handled since, or if no new log was given; then nothing
   changes.
   Answers CASNODE_NOT_OPEN if the handle has no node. */
uint8_t casnode_keep_log(struct casnode *node, uint8_t *kept);

/* Gives back the memory of the node. The handle has none then, and may be opened again. Without a node nothing happens.
   Its tasks are forgotten: for the next casnode_open only the log counts. */
void casnode_close(struct casnode *node);

/* A text, with its length. */
struct casnode_label {
  const uint8_t *bytes;
  size_t length;
};

/* Sets `text` to the text of an answer, which is its number and its name, such as "5 BadLog". The text stays valid as
   long as the program runs. It ends with a zero byte, which `length` counts. */
void casnode_text(uint8_t answer, struct casnode_label *text);

/* Returns the same text as a string. */
static inline const char *casnode_string(uint8_t answer) {
  struct casnode_label text;
  casnode_text(answer, &text);
  return (const char *)text.bytes;
}

#ifdef __cplusplus
}
#endif

#endif
