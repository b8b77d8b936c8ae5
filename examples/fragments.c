/* Codes a file into n files, of which any k give it back.
     fragments code K N FILE        writes FILE.0 to FILE.(N-1)
     fragments join K LENGTH FILE   writes FILE, of LENGTH bytes, from the first K of those files that are there */
#include <coding.h>
#include <stdio.h>
#include <stdlib.h>
#include <string.h>

/* A byte more than a value may have: a longer file is refused. */
static uint8_t value[CODING_LONGEST_VALUE + 1], fragments[CODING_LONGEST_VALUE + 255];

static void check(uint8_t answer) {
  if (answer != CODING_DONE) {
    fprintf(stderr, "refused: %s\n", coding_string(answer));
    exit(1);
  }
}

static FILE *open_file(const char *name, int i, const char *mode) {
  char path[4096];
  snprintf(path, sizeof path, i < 0 ? "%s" : "%s.%d", name, i);
  return fopen(path, mode);
}

static uint8_t number(const char *text) {
  long number = strtol(text, NULL, 10);
  if (number < 0 || number > 255)
    check(CODING_BAD_LAYOUT);
  return (uint8_t)number;
}

/* One fragment at a time, so that there is room for any n. */
static void code(uint8_t k, uint8_t n, const char *name) {
  FILE *file = open_file(name, -1, "rb");
  if (file == NULL)
    exit(2);
  size_t size = 0, length = fread(value, 1, sizeof value, file);
  fclose(file);
  check(n < k ? CODING_BAD_LAYOUT : coding_fragment_length(k, length, &size));
  for (int i = 0; i < n; i++) {
    check(coding_encode_one(k, i, value, length, fragments, size));
    FILE *out = open_file(name, i, "wb");
    if (out == NULL || fwrite(fragments, 1, size, out) != size || fclose(out) != 0)
      exit(2);
  }
}

static void join(uint8_t k, size_t length, const char *name) {
  uint8_t points[255];
  struct coding_bytes found[255];
  size_t size = 0;
  int count = 0;
  check(coding_fragment_length(k, length, &size));
  for (int i = 0; i < 255 && count < k; i++) {
    FILE *file = open_file(name, i, "rb");
    if (file == NULL)
      continue;
    uint8_t *place = fragments + count * size;
    points[count] = i;
    found[count++] = (struct coding_bytes){place, fread(place, 1, size, file)};
    fclose(file);
  }
  check(coding_decode(k, points, count, found, count, value, length));
  FILE *out = open_file(name, -1, "wb");
  if (out == NULL || fwrite(value, 1, length, out) != length || fclose(out) != 0)
    exit(2);
}

int main(int argc, char **argv) {
  if (argc == 5 && strcmp(argv[1], "code") == 0)
    code(number(argv[2]), number(argv[3]), argv[4]);
  else if (argc == 5 && strcmp(argv[1], "join") == 0)
    join(number(argv[2]), strtoul(argv[3], NULL, 10), argv[4]);
  else
    return 2;
}
