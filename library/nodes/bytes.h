/* Bytes that grow, and frames in them, for the programs that test nodes. If memory is refused, the program ends. */
#ifndef BYTES_H
#define BYTES_H

#include <stdbool.h>
#include <stddef.h>
#include <stdint.h>

/* All zeros is no bytes. */
struct bytes {
  uint8_t *first;
  size_t length, room;
};

void bytes_add(struct bytes *bytes, const void *added, size_t count);
void bytes_drop(struct bytes *bytes, size_t count); /* takes bytes from the front */
void bytes_free(struct bytes *bytes);

/* The frame with which bytes begin: "*COUNT\r\n", and for each string "$LENGTH\r\nSTRING\r\n". */
struct frame {
  size_t count;          /* how many strings it has */
  const char *address;   /* the first one */
  size_t address_length;
  const uint8_t *rest;   /* the others, as they stand in the frame */
  size_t rest_length;
  size_t length;         /* of the whole frame */
};

/* Whether the bytes begin with a whole frame, which has an address. */
bool frame_at(const uint8_t *bytes, size_t length, struct frame *frame);

/* Writes the strings behind the address one after another, as a client gets them, and a zero byte. Returns how many
   bytes they have; the program ends if there is no room. */
size_t answer_in(const struct frame *frame, char *to, size_t room);

/* The number behind a word such as "node ", with which the address begins; and otherwise -1. */
long number_behind(const struct frame *frame, const char *word);

/* Adds a frame with this address, and with strings that are in a frame already. */
void put_frame(struct bytes *to, const char *address, size_t count, const uint8_t *rest, size_t rest_length);

/* Adds a frame of these words, each ended by a zero byte. The last one is followed by NULL. */
void put_words(struct bytes *to, ...);

#endif
