/* Erasure coding of values: a value is coded into n fragments, and any k of them restore it.

   A value is cut into k blocks. Each has `length` bytes, which is the value's length over k, rounded up, and block j
   begins at byte j * length; past the value's end it has zeros. The fragment at the point x has `length` bytes too.
   Byte b of it is the sum over the blocks j of x^j times byte b of block j, in the field of 256 elements modulo
   x^8 + x^4 + x^3 + x^2 + 1, where 0^0 is 1. So the fragment at the point 0 is block 0.

   Each function takes a slice as a pointer and the number of its elements. It returns CODING_DONE, or the number of a
   refusal, and then it has changed nothing. A pointer must not be null, even if the number of elements is 0. A buffer
   that a function writes to must not overlap any other argument. No function allocates memory or keeps its arguments,
   and several threads may call functions at once. A call uses about 16 KiB of stack; a decode or repair with k above 64
   uses about 80 KiB.

   All output goes to buffers of the caller. Where speed counts, use the same buffers for many values: with memory that
   is taken anew for each call, coding may take twice as long, and more. "What fresh memory costs" in bench/README.md,
   in the source, has a table.

   The library needs a processor of the level x86-64-v2 (SSE4.2). It has its functions twice, for this level and for
   x86-64-v3 (AVX2), and the loader chooses by the processor that the program runs on. The functions of both levels are
   proved. That choice, and the steps by which the two become one library, are tested and not proved. */
#ifndef CODING_H
#define CODING_H

#include <stddef.h>
#include <stdint.h>

/* The longest value, in bytes. */
#define CODING_LONGEST_VALUE 16777216

#ifdef __cplusplus
extern "C" {
#endif

/* What a function returns. */
enum coding_answer {
  CODING_DONE = 0,
  CODING_BAD_LAYOUT = 2,  /* k is 0, or above n */
  CODING_TOO_LONG = 5,    /* the value is longer than CODING_LONGEST_VALUE */
  CODING_BAD_PIECES = 15, /* the fragments are not k fragments at distinct points of one value of that length */
  CODING_BAD_BUFFER = 18  /* the length of a buffer is not that of what is to be written to it */
};

/* Bytes to read, such as one fragment of several. */
struct coding_bytes {
  const uint8_t *bytes;
  size_t length;
};

/* Writes the length of each fragment of a value, in bytes, to `length`: the value's length over k, rounded up.
   Returns CODING_BAD_LAYOUT if k is 0, else CODING_TOO_LONG if the value is too long. */
uint8_t coding_fragment_length(uint8_t k, size_t value_length, size_t *length);

/* Writes the fragments of the value at the points 0 to n - 1 to `fragments`, one after another.
   Returns CODING_BAD_LAYOUT if k is 0 or above n, else CODING_TOO_LONG if the value is too long, else CODING_BAD_BUFFER
   if `fragments_length` is not n times the length of a fragment. */
uint8_t coding_encode(uint8_t k, uint8_t n, const uint8_t *value, size_t value_length, uint8_t *fragments,
                      size_t fragments_length);

/* Writes the value's fragment at one point, from 0 to 255, to `fragment`.
   Returns CODING_BAD_LAYOUT if k is 0, else CODING_TOO_LONG if the value is too long, else CODING_BAD_BUFFER if
   `fragment_length` is not the length of a fragment. */
uint8_t coding_encode_one(uint8_t k, uint8_t point, const uint8_t *value, size_t value_length, uint8_t *fragment,
                          size_t fragment_length);

/* Writes the value of `value_length` bytes that has these fragments to `value`. Fragment i of the list is the one at
   point i of the list of points, and the points may be in any order. There must be k points and k fragments.
   Returns CODING_BAD_PIECES if they are not k fragments at distinct points of a value of that length; then nothing is
   written. */
uint8_t coding_decode(uint8_t k, const uint8_t *points, size_t point_count, const struct coding_bytes *fragments,
                      size_t fragment_count, uint8_t *value, size_t value_length);

/* Decodes the value of `value_length` bytes that has these fragments to `value`, as coding_decode does, and writes the
   value's fragment at `point` to `fragment`.
   If the value is not wanted, coding_repair_fragment is faster.
   Returns CODING_BAD_BUFFER if k is above 0 and `fragment_length` is not the length of a fragment, else
   CODING_BAD_PIECES as coding_decode does. */
uint8_t coding_repair(uint8_t k, const uint8_t *points, size_t point_count, const struct coding_bytes *fragments,
                      size_t fragment_count, uint8_t point, uint8_t *value, size_t value_length, uint8_t *fragment,
                      size_t fragment_length);

/* Writes the fragment at `point` to `fragment`, as coding_repair does, but does not compute the value: this takes about
   a k-th of the work of coding_decode, and no buffer of the value's length. Returns what coding_repair returns. */
uint8_t coding_repair_fragment(uint8_t k, const uint8_t *points, size_t point_count,
                               const struct coding_bytes *fragments, size_t fragment_count, uint8_t point,
                               size_t value_length, uint8_t *fragment, size_t fragment_length);

/* Sets `text` to the text of an answer, which is its number and its name, such as "15 BadPieces". The text stays valid
   as long as the program runs. It ends with a zero byte, which `length` counts. */
void coding_text(uint8_t answer, struct coding_bytes *text);

/* Returns the same text as a string. */
static inline const char *coding_string(uint8_t answer) {
  struct coding_bytes text;
  coding_text(answer, &text);
  return (const char *)text.bytes;
}

/* Returns the level of the processor whose functions are used: "x86-64-v2" or "x86-64-v3". */
const char *coding_processor(void);

#ifdef __cplusplus
}
#endif

#endif
