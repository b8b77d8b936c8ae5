/* A lost fragment from k others, by this repository and by ISA-L. */
#include "works.h"
#include <isa-l/erasure_code.h>
#include <stddef.h>

static uint8_t rows[MOST * MOST], inverse[MOST * MOST], weights[MOST], tables[32 * MOST], value[LONGEST];

int lost_point(const struct task *t) { return t->n > t->k ? 0 : t->n; }

void own_repair_fragment(const struct task *t) {
  uint8_t answer = coding_repair_fragment((uint8_t)t->k, t->points, (size_t)t->k, t->pieces, (size_t)t->k,
                                          (uint8_t)lost_point(t), t->len, room, t->fragment_len);
  if (answer != CODING_DONE)
    refuse_bytes(t, "coding_repair_fragment", answer);
}

/* The powers of a point: x^0, x^1, .. x^(k-1). */
static void make_row(uint8_t *row, uint8_t point, int k) {
  row[0] = 1;
  for (int j = 1; j < k; j++)
    row[j] = gf_mul(row[j - 1], point);
}

/* The lost point's row times the inverse of the matrix of the points that are left. */
void isal_repair(const struct task *t) {
  int k = t->k;
  uint8_t *sources[MOST], *target = room, row[MOST];
  for (int i = 0; i < k; i++) {
    make_row(rows + i * k, t->points[i], k);
    sources[i] = (uint8_t *)t->pieces[i].bytes;
  }
  if (gf_invert_matrix(rows, inverse, k) != 0)
    refuse_bytes(t, "ISA-L inverts no matrix", 0);
  make_row(row, (uint8_t)lost_point(t), k);
  for (int i = 0; i < k; i++) {
    weights[i] = 0;
    for (int j = 0; j < k; j++)
      weights[i] ^= gf_mul(row[j], inverse[j * k + i]);
  }
  ec_init_tables(k, 1, weights, tables);
  ec_encode_data((int)t->fragment_len, k, 1, tables, sources, &target);
}

void own_repair_fragment_calls(const struct task *t, long calls) {
  for (long call = 0; call < calls; call++)
    own_repair_fragment(t);
}

void own_repair_calls(const struct task *t, long calls) {
  for (long call = 0; call < calls; call++)
    own_repair(t, lost_point(t), value);
}

void isal_repair_calls(const struct task *t, long calls) {
  for (long call = 0; call < calls; call++)
    isal_repair(t);
}
