/* The two calls of crates/coding_exports that take memory, each once where it is done and where it is refused. The
   library leaves them out; `bench` measures them. They are called by the names that library/install gives them, where
   LEVEL is v2 or v3. */
#include <stdint.h>
#include <stdio.h>
#include <string.h>

#define JOINED(level, name) level##_##name
#define NAMED(level, name) JOINED(level, name)
#define ENCODE NAMED(LEVEL, coding_exports_encode)
#define DECODE NAMED(LEVEL, coding_exports_decode)

uint8_t ENCODE(uint8_t k, uint8_t n, const uint8_t *value, size_t value_length, uint32_t times, uint8_t point,
               uint8_t *room, size_t room_length);
uint8_t DECODE(uint8_t k, uint32_t length, const uint8_t *points, size_t point_count, const uint8_t *fragments,
               size_t fragments_length, uint32_t times, uint8_t *room, size_t room_length);

static int expect(int holds, const char *what) {
  if (!holds)
    fprintf(stderr, "library: not as expected: %s\n", what);
  return !holds;
}

int main(void) {
  uint8_t fragment[3] = "abc", value[5];
  const uint8_t hello[5] = "hello", points[2] = {3, 1}, same[2] = {1, 1}, fragments[6] = "\xdc\xd4l\x04\x0al";
  int wrong = 0;

  wrong += expect(ENCODE(3, 2, hello, 5, 1, 0, fragment, 3) == 2, "a copy is refused, BadLayout");
  wrong += expect(DECODE(2, 5, same, 2, fragments, 6, 1, fragment, 3) == 15, "a copy is refused, BadPieces");
  wrong += expect(DECODE(0, 3, same, 2, hello, 4, 1, fragment, 3) == 15, "a copy for k = 0 is refused, BadPieces");
  wrong += expect(memcmp(fragment, "abc", 3) == 0, "a refused copy changes nothing");
  wrong += expect(ENCODE(2, 4, hello, 5, 3, 3, fragment, 3) == 0, "a copy is coded");
  wrong += expect(memcmp(fragment, fragments, 3) == 0, "a copy's fragment");
  wrong += expect(DECODE(2, 5, points, 2, fragments, 6, 3, value, 5) == 0, "a copy is decoded");
  wrong += expect(memcmp(value, hello, 5) == 0, "a copy's value");
  return wrong != 0;
}
