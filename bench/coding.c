/* Measures the coding library of this repository against Intel ISA-L: first it compares all bytes, then it times, and
   prints eight tables. README.md says what is measured, and what is in and out. */
#include "peers.h"
#include <stdio.h>
#include <stdlib.h>
#include <string.h>
#include <time.h>

enum { RUNS = 5, RUNS_OF_LONG = 3, WORKS = 7 };

static const int CODES[][2] = {{2, 4}, {3, 5}, {4, 6}, {8, 12}, {10, 14}, {32, 32}, {100, 255}};
static const size_t LENGTHS[] = {64, 4 << 10, 64 << 10, 300 << 10, 1 << 20, 16 << 20};
enum { CODE_COUNT = sizeof CODES / sizeof CODES[0], LENGTH_COUNT = sizeof LENGTHS / sizeof LENGTHS[0] };
static const double RUN_SECONDS = 0.1;
static uint8_t *lost;

/* Codes the value by ISA-L, and compares what each call of this repository makes of the value and of the pieces. Of
   the calls that take memory each fragment of values up to 1 MiB, above it the first and the last, since each codes
   anew. */
static void compare_fragments(const struct task *t, uint8_t *fragments) {
  size_t size = t->fragment_len;
  isal_encode(t);
  memcpy(fragments, room, t->n * size);
  memset(room, 0xA5, t->n * size);
  own_encode(t);
  if (memcmp(room, fragments, t->n * size) != 0)
    refuse_bytes(t, "the fragments", 0);
  for (int i = 0; i < t->n; i++) {
    memset(room, 0xA5, size);
    own_encode_one(t, i);
    if (memcmp(room, fragments + i * size, size) != 0)
      refuse_bytes(t, "one fragment", i);
    if (t->len > 1 << 20 && i > 0 && i < t->n - 1)
      continue;
    memset(room, 0xA5, size);
    own_encode_fresh_to(t, i, size);
    if (memcmp(room, fragments + i * size, size) != 0)
      refuse_bytes(t, "a fragment in fresh memory", i);
  }
}

static void is_value(const struct task *t, const uint8_t *got, const char *what) {
  if (memcmp(got, t->value, t->len) != 0)
    refuse_bytes(t, what, 0);
  memset(room, 0xA5, t->len);
}

/* The room has the fragment at the lost point; it is written anew by the encoder. */
static void is_lost(const struct task *t, const char *what) {
  memcpy(lost, room, t->fragment_len);
  own_encode_one(t, lost_point(t));
  if (memcmp(room, lost, t->fragment_len) != 0)
    refuse_bytes(t, what, lost_point(t));
  memset(room, 0xA5, t->fragment_len);
}

static void compare_values(const struct task *t, uint8_t *other) {
  own_decode(t);
  is_value(t, room, "a decoded value");
  own_decode_fresh_to(t, t->len);
  is_value(t, room, "a value decoded in fresh memory");
  isal_decode(t);
  is_value(t, room, "a value decoded by ISA-L");
  own_repair(t, lost_point(t), other);
  is_lost(t, "a fragment repaired with its value");
  is_value(t, other, "a value decoded for a repair");
  own_repair_fragment(t);
  is_lost(t, "a repaired fragment");
  isal_repair(t);
  is_lost(t, "a fragment repaired by ISA-L");
}

/* Processor time, which on a quiet machine is the time on the clock. */
static double now(void) {
  struct timespec time;
  clock_gettime(CLOCK_PROCESS_CPUTIME_ID, &time);
  return (double)time.tv_sec + (double)time.tv_nsec * 1e-9;
}

/* The loops of ISA-L leave the upper halves of the registers in use, which slows older instructions after them. */
static double seconds_of(void (*work)(const struct task *, long), const struct task *t, long calls) {
  if (__builtin_cpu_supports("avx"))
    __asm__ volatile("vzeroupper");
  double start = now();
  work(t, calls);
  return now() - start;
}

/* One of the works that are timed in turn: its calls a run, and the rates of its runs in GB/s of value bytes. */
struct timing {
  void (*before)(const struct task *);
  void (*work)(const struct task *, long calls);
  long calls;
  double rates[RUNS];
};

/* The places of the works in each row; a repair has the first three. */
enum { OWN_INTO, OWN_FRESH, ISAL, ISAL_AT_LEVEL, ISAL_FRESH, ISAL_KEPT, PEER, WITH_VALUE = OWN_FRESH, REPAIRS_END = 3 };

/* The rows of one call, for each code and each length. */
static const struct timing ENCODES[WORKS] = {{NULL, own_encode_calls, 0, {0}},
                                             {NULL, own_encode_fresh, 0, {0}},
                                             {NULL, isal_encode_calls, 0, {0}},
                                             {NULL, isal_encode_level_calls, 0, {0}},
                                             {NULL, isal_encode_fresh_calls, 0, {0}},
                                             {isal_encode_tables, isal_encode_blocks_calls, 0, {0}},
                                             {NULL, peer_encode_calls, 0, {0}}};
static const struct timing DECODES[WORKS] = {{NULL, own_decode_calls, 0, {0}},
                                             {NULL, own_decode_fresh, 0, {0}},
                                             {NULL, isal_decode_calls, 0, {0}},
                                             {NULL, isal_decode_level_calls, 0, {0}},
                                             {NULL, isal_decode_fresh_calls, 0, {0}},
                                             {isal_decode_tables, isal_decode_blocks_calls, 0, {0}},
                                             {NULL, peer_decode_calls, 0, {0}}};
static const struct timing REPAIRS[REPAIRS_END] = {{NULL, own_repair_fragment_calls, 0, {0}},
                                                   {NULL, own_repair_calls, 0, {0}},
                                                   {NULL, isal_repair_calls, 0, {0}}};
static struct timing rows[CODE_COUNT][LENGTH_COUNT][3][WORKS];

static int runs_of(size_t len) { return len > 1 << 20 ? RUNS_OF_LONG : RUNS; }

/* As many calls as take a run's time. */
static void calibrate(struct timing *w, const struct task *t) {
  double seconds = 0;
  w->calls = 1;
  while ((seconds = seconds_of(w->work, t, w->calls)) < RUN_SECONDS / 4)
    w->calls *= 2;
  if (seconds < RUN_SECONDS)
    w->calls = (long)((double)w->calls * RUN_SECONDS * 1.1 / seconds) + 1;
}

static int by_rate(const void *a, const void *b) {
  double x = *(const double *)a, y = *(const double *)b;
  return (x > y) - (x < y);
}

/* Calibrates each work, times it in its runs, the works in turn, and sorts the rates. */
static void measure(const struct task *t, struct timing *works, int count) {
  int runs = runs_of(t->len);
  for (int run = -1; run < runs; run++) {
    for (int i = 0; i < count; i++) {
      struct timing *w = &works[i];
      if (w->before != NULL)
        w->before(t);
      if (run < 0)
        calibrate(w, t);
      else
        w->rates[run] = (double)t->len * (double)w->calls / seconds_of(w->work, t, w->calls) * 1e-9;
    }
  }
  for (int i = 0; i < count; i++)
    qsort(works[i].rates, runs, sizeof(double), by_rate);
}

/* Best and median, with a mark where the slowest run took over a quarter longer than the best. */
static void print_rates(const struct timing *w, int runs) {
  double best = w->rates[runs - 1], median = w->rates[runs / 2];
  printf(" %.3f | %.3f%s |", best, median, best > 1.25 * w->rates[0] ? " ~" : "");
}

/* Ours, the other's, the ratios, and ISA-L's with its tables kept where that is asked for. */
static void print_row(const char *call, int code, size_t len, const struct timing *works, int own, int other,
                      int with_kept) {
  int is_small = len < 1 << 10, runs = runs_of(len);
  printf("| %s | %d of %d | %zu %s |", call, CODES[code][0], CODES[code][1], is_small ? len : len >> 10,
         is_small ? "B" : "KiB");
  print_rates(&works[own], runs);
  print_rates(&works[other], runs);
  printf(" %.3f | %.3f |", works[own].rates[runs - 1] / works[other].rates[runs - 1],
         works[own].rates[runs / 2] / works[other].rates[runs / 2]);
  if (with_kept)
    print_rates(&works[ISAL_KEPT], runs);
  printf("\n");
}

static void print_table(const char *title, const char *name, int first, int last, int own, int other, int with_kept) {
  static const char *const CALLS[] = {"encode", "decode", "repair"};
  printf("%s\n\n| | k of n | value | ours, best | median | %s, best | median | ours / %s, best | median |%s\n", title,
         name, name, with_kept ? " ISA-L, tables kept, best | median |" : "");
  printf("|-|-|-|-|-|-|-|-|-|%s\n", with_kept ? "-|-|" : "");
  for (int c = 0; c < CODE_COUNT; c++) {
    for (int l = 0; l < LENGTH_COUNT; l++) {
      for (int call = first; call <= last; call++)
        if (rows[c][l][call][other].calls != 0)
          print_row(CALLS[call], c, LENGTHS[l], rows[c][l][call], own, other, with_kept);
    }
  }
  printf("\n");
}

static struct task task_of(const int *code, size_t len, const uint8_t *value, const uint8_t *fragments) {
  struct task t = {.k = code[0], .n = code[1], .len = len, .value = value, .fragments = fragments};
  t.fragment_len = (len + t.k - 1) / t.k;
  for (int i = 0; i < t.k; i++) {
    int point = t.n - t.k + i;
    t.points[i] = (uint8_t)point;
    t.pieces[i] = (struct coding_bytes){fragments + point * t.fragment_len, t.fragment_len};
  }
  return t;
}

int main(void) {
  size_t most_bytes = 3 * (size_t)LONGEST + MOST * 64; /* n fragments, where n is at most 3k */
  uint8_t *value = memory(LONGEST), *other = memory(LONGEST), *fragments = memory(most_bytes);
  uint8_t *place = memory(most_bytes + MOST * 16);
  prepare_works(most_bytes);
  lost = memory(LONGEST);
  uint64_t state = 88172645463325252u; /* xorshift */
  for (size_t at = 0; at < LONGEST; at++) {
    state ^= state << 13, state ^= state >> 7, state ^= state << 17;
    value[at] = (uint8_t)(state >> 32);
  }
  for (int c = 0; c < CODE_COUNT; c++) {
    for (int l = 0; l < LENGTH_COUNT; l++) {
      struct task t = task_of(CODES[c], LENGTHS[l], value, fragments);
      compare_fragments(&t, fragments);
      compare_values(&t, other);
    }
  }
  printf("The bytes of all %d cases are the same.\n\n", CODE_COUNT * LENGTH_COUNT);
  fflush(stdout);
  for (int c = 0; c < CODE_COUNT; c++) {
    for (int l = 0; l < LENGTH_COUNT; l++) {
      struct task t = task_of(CODES[c], LENGTHS[l], value, fragments);
      isal_encode(&t);
      memcpy(fragments, room, t.n * t.fragment_len);
      memcpy(rows[c][l][0], ENCODES, sizeof ENCODES);
      memcpy(rows[c][l][1], DECODES, sizeof DECODES);
      int has_peer = peer_prepare(&t, place);
      if (has_peer)
        peer_compare(&t);
      measure(&t, rows[c][l][0], has_peer ? WORKS : PEER);
      measure(&t, rows[c][l][1], has_peer ? WORKS : PEER);
      memcpy(rows[c][l][2], REPAIRS, sizeof REPAIRS);
      measure(&t, rows[c][l][2], REPAIRS_END);
    }
  }
  const char *warm = "The caller's buffers on both sides.", *fresh = "Fresh memory on both sides.";
  print_table(warm, "ISA-L", 0, 1, OWN_INTO, ISAL, 1);
  print_table("The caller's buffers, and ISA-L with our level's instructions.", "ISA-L", 0, 1, OWN_INTO, ISAL_AT_LEVEL,
              0);
  print_table(fresh, "ISA-L", 0, 1, OWN_FRESH, ISAL_FRESH, 1);
  print_table("Ours in fresh memory, ISA-L in warm buffers.", "ISA-L", 0, 1, OWN_FRESH, ISAL, 1);
  print_table("Ours in fresh memory and in the caller's buffers.", "in buffers", 0, 1, OWN_FRESH, OWN_INTO, 0);
  print_table("Jerasure's systematic code, in the caller's buffers.", "Jerasure", 0, 1, OWN_INTO, PEER, 0);
  print_table("A lost fragment.", "ISA-L", 2, 2, OWN_INTO, ISAL, 0);
  print_table("A lost fragment, and the same with the value.", "with the value", 2, 2, OWN_INTO, WITH_VALUE, 0);
  return 0;
}
