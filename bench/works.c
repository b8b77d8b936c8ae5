/* The calls of this repository and of ISA-L, each with the same bytes in and out. */
#include "works.h"
#include <isa-l/erasure_code.h>
#include <stdio.h>
#include <stdlib.h>
#include <string.h>

/* The exports of crates/coding_exports that take memory. */
uint8_t coding_exports_encode(uint8_t k, uint8_t n, const uint8_t *value, size_t value_len, uint32_t times, uint8_t i,
                              uint8_t *room, size_t room_len);
uint8_t coding_exports_decode(uint8_t k, uint32_t len, const uint8_t *points, size_t points_len,
                              const uint8_t *fragments, size_t fragments_len, uint32_t times, uint8_t *room,
                              size_t room_len);

/* What an ISA-L caller keeps from call to call: memory, and the tables where it keeps them. */
static uint8_t rows[MOST * MOST], inverse[MOST * MOST], tables[32 * MOST * MOST];
static uint8_t *sources[MOST], *targets[MOST];
static uint8_t *padding;
uint8_t *room;

void *memory(size_t size) {
  void *place = aligned_alloc(64, (size + 63) / 64 * 64);
  if (place == NULL) {
    fprintf(stderr, "no memory\n");
    exit(1);
  }
  memset(place, 0, (size + 63) / 64 * 64);
  return place;
}

void refuse_bytes(const struct task *t, const char *what, int place) {
  fprintf(stderr, "DIFFERENT BYTES: %s, k %d, n %d, %zu bytes, at %d\n", what, t->k, t->n, t->len, place);
  exit(1);
}

void prepare_works(size_t most_bytes) { padding = memory(most_bytes), room = memory(most_bytes); }

/* Row i of the matrix: i^0, i^1, .. i^(k-1). */
static void make_row(uint8_t *row, uint8_t point, int k) {
  uint8_t power = 1;
  for (int j = 0; j < k; j++) {
    row[j] = power;
    power = gf_mul(power, point);
  }
}

/* The matrix and its tables. */
void isal_encode_tables(const struct task *t) {
  for (int i = 0; i < t->n; i++)
    make_row(rows + i * t->k, (uint8_t)i, t->k);
  ec_init_tables(t->k, t->n, rows, tables);
}

/* ISA-L's loop over the blocks: it chooses one as it runs, and each is there by its own name. */
typedef void coder(int len, int sources, int targets, unsigned char *tables, unsigned char **from, unsigned char **to);

/* All n fragments to the place. Blocks that end past the value are copied to `padded` and padded there. */
static void isal_encode_to(const struct task *t, coder *code, uint8_t *padded, uint8_t *place) {
  for (int j = 0; j < t->k; j++) {
    size_t start = j * t->fragment_len;
    if (start + t->fragment_len <= t->len) {
      sources[j] = (uint8_t *)t->value + start;
    } else {
      size_t left = start < t->len ? t->len - start : 0;
      sources[j] = padded;
      memcpy(sources[j], t->value + t->len - left, left);
      memset(sources[j] + left, 0, t->fragment_len - left);
      padded += t->fragment_len;
    }
  }
  for (int i = 0; i < t->n; i++)
    targets[i] = place + i * t->fragment_len;
  code((int)t->fragment_len, t->k, t->n, tables, sources, targets);
}

void isal_encode_blocks(const struct task *t) { isal_encode_to(t, ec_encode_data, padding, room); }

void isal_encode(const struct task *t) {
  isal_encode_tables(t);
  isal_encode_blocks(t);
}

void isal_encode_level(const struct task *t) {
  isal_encode_tables(t);
  isal_encode_to(t, ISAL_LEVEL, padding, room);
}

static void isal_encode_fresh(const struct task *t) {
  size_t whole = t->len / t->fragment_len;
  uint8_t *place = malloc(t->n * t->fragment_len), *padded = malloc((t->k - whole) * t->fragment_len + 1);
  if (place == NULL || padded == NULL)
    refuse_bytes(t, "no memory", 0);
  isal_encode_tables(t);
  isal_encode_to(t, ec_encode_data, padded, place);
  free(padded);
  free(place);
}

/* The matrix of the k points, its inverse and the tables. */
void isal_decode_tables(const struct task *t) {
  for (int i = 0; i < t->k; i++)
    make_row(rows + i * t->k, t->points[i], t->k);
  if (gf_invert_matrix(rows, inverse, t->k) != 0)
    refuse_bytes(t, "ISA-L inverts no matrix", 0);
  ec_init_tables(t->k, t->k, inverse, tables);
}

/* The k blocks to the place. */
static void isal_decode_to(const struct task *t, coder *code, uint8_t *place) {
  for (int i = 0; i < t->k; i++) {
    sources[i] = (uint8_t *)t->pieces[i].bytes;
    targets[i] = place + i * t->fragment_len;
  }
  code((int)t->fragment_len, t->k, t->k, tables, sources, targets);
}

void isal_decode_blocks(const struct task *t) { isal_decode_to(t, ec_encode_data, room); }

void isal_decode(const struct task *t) {
  isal_decode_tables(t);
  isal_decode_blocks(t);
}

void isal_decode_level(const struct task *t) {
  isal_decode_tables(t);
  isal_decode_to(t, ISAL_LEVEL, room);
}

static void isal_decode_fresh(const struct task *t) {
  uint8_t *place = malloc(t->k * t->fragment_len);
  if (place == NULL)
    refuse_bytes(t, "no memory", 0);
  isal_decode_tables(t);
  isal_decode_to(t, ec_encode_data, place);
  free(place);
}

static void done(const struct task *t, const char *call, uint8_t answer) {
  if (answer != CODING_DONE)
    refuse_bytes(t, call, answer);
}

void own_encode(const struct task *t) {
  done(t, "coding_encode", coding_encode(t->k, t->n, t->value, t->len, room, t->n * t->fragment_len));
}

void own_encode_one(const struct task *t, int i) {
  done(t, "coding_encode_one", coding_encode_one(t->k, i, t->value, t->len, room, t->fragment_len));
}

void own_decode(const struct task *t) {
  done(t, "coding_decode", coding_decode(t->k, t->points, t->k, t->pieces, t->k, room, t->len));
}

void own_repair(const struct task *t, int i, uint8_t *value) {
  done(t, "coding_repair",
       coding_repair(t->k, t->points, t->k, t->pieces, t->k, i, value, t->len, room, t->fragment_len));
}

/* The input is copied once, and coded as often as is said; the last output goes to the room where the room has its
   length. */
static void encode_fresh(const struct task *t, uint32_t times, int i, size_t room_len) {
  done(t, "coding_exports_encode", coding_exports_encode(t->k, t->n, t->value, t->len, times, i, room, room_len));
}

static void decode_fresh(const struct task *t, uint32_t times, size_t room_len) {
  uint8_t answer = coding_exports_decode(t->k, t->len, t->points, t->k, t->pieces[0].bytes, t->k * t->fragment_len,
                                         times, room, room_len);
  done(t, "coding_exports_decode", answer);
}

void own_encode_fresh_to(const struct task *t, int i, size_t room_len) { encode_fresh(t, 1, i, room_len); }

void own_decode_fresh_to(const struct task *t, size_t room_len) { decode_fresh(t, 1, room_len); }

void own_encode_fresh(const struct task *t, long calls) { encode_fresh(t, calls, 0, 0); }

void own_decode_fresh(const struct task *t, long calls) { decode_fresh(t, calls, 0); }

/* A copy that is there while the calls take memory, as ours has one: both then take it from the same place. */
static uint8_t *copy_of(const struct task *t, const uint8_t *bytes, size_t len) {
  uint8_t *copy = malloc(len);
  if (copy == NULL)
    refuse_bytes(t, "no memory", 0);
  return memcpy(copy, bytes, len);
}

void isal_encode_fresh_calls(const struct task *t, long calls) {
  uint8_t *value = copy_of(t, t->value, t->len);
  struct task copied = *t;
  copied.value = value;
  for (long call = 0; call < calls; call++)
    isal_encode_fresh(&copied);
  free(value);
}

void isal_decode_fresh_calls(const struct task *t, long calls) {
  uint8_t *copies[MOST];
  struct task copied = *t;
  for (int i = 0; i < t->k; i++)
    copied.pieces[i].bytes = copies[i] = copy_of(t, t->pieces[i].bytes, t->fragment_len);
  for (long call = 0; call < calls; call++)
    isal_decode_fresh(&copied);
  for (int i = 0; i < t->k; i++)
    free(copies[i]);
}

/* Each call anew, as often as is said. */
#define REPEATED(name)                                                                                                 \
  void name##_calls(const struct task *t, long calls) {                                                                \
    for (long call = 0; call < calls; call++)                                                                          \
      name(t);                                                                                                         \
  }

REPEATED(own_encode)
REPEATED(own_decode)
REPEATED(isal_encode)
REPEATED(isal_decode)
REPEATED(isal_encode_level)
REPEATED(isal_decode_level)
REPEATED(isal_encode_blocks)
REPEATED(isal_decode_blocks)
