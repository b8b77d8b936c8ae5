/* calls LEVEL: makes each call of the library once where it is done, and where it is refused, and compares the answers,
   their texts and the buffers. ISA-L gives the fragments of "hello", with k = 2 and n = 4, as 68656c 040a6c b0bb6c
   dcd46c. Last it compares the level that the library chose with LEVEL, such as x86-64-v2. */
#include <coding.h>
#include <stdio.h>
#include <stdlib.h>
#include <string.h>

static const uint8_t HELLO[5] = "hello", FRAGMENTS[12] = "hel\x04\x0al\xb0\xbbl\xdc\xd4l", SAME[12] = "abcdefghijkl";
static const struct coding_bytes ONE = {FRAGMENTS + 3, 3}, THREE = {FRAGMENTS + 9, 3};

static void expect(int holds, const char *what) {
  if (!holds) {
    fprintf(stderr, "library: not as expected: %s\n", what);
    exit(1);
  }
}

/* The answer is the number with which its text begins. The text's length counts the zero byte at its end. */
static void is_refused(uint8_t answer, const char *wanted) {
  struct coding_bytes text;
  coding_text(answer, &text);
  expect(answer == atoi(wanted) && text.length == strlen(wanted) + 1, wanted);
  expect(memcmp(text.bytes, wanted, text.length) == 0 && strcmp(coding_string(answer), wanted) == 0, wanted);
}

static void is_done(uint8_t answer, const uint8_t *got, const void *wanted, size_t length, const char *what) {
  expect(answer == CODING_DONE && memcmp(got, wanted, length) == 0, what);
}

static void refuses_and_changes_nothing(void) {
  uint8_t room[12], other[3];
  size_t length = 7;
  const uint8_t points[2] = {3, 1}, twice[2] = {1, 1};
  // With "abc" in place of the second fragment the value would have a byte past its end that is not 0.
  const struct coding_bytes pieces[2] = {THREE, ONE}, one_twice[2] = {ONE, ONE}, wrong[2] = {THREE, {SAME, 3}};
  memcpy(room, SAME, 12), memcpy(other, SAME, 3);

  is_refused(coding_fragment_length(0, 5, &length), "2 BadLayout");
  is_refused(coding_fragment_length(1, CODING_LONGEST_VALUE + 1, &length), "5 TooLong");
  is_refused(coding_fragment_length(2, CODING_LONGEST_VALUE + 1, &length), "5 TooLong");
  expect(length == 7, "a refused length changes nothing");
  is_refused(coding_encode(3, 2, HELLO, 5, room, 5), "2 BadLayout");
  is_refused(coding_encode(3, 2, HELLO, 5, room, 12), "2 BadLayout");
  is_refused(coding_encode(2, 2, HELLO, 5, room, 5), "18 BadBuffer");
  is_refused(coding_encode(2, 4, HELLO, 5, room, 11), "18 BadBuffer");
  is_refused(coding_encode_one(0, 1, HELLO, 5, room, 3), "2 BadLayout");
  is_refused(coding_encode_one(2, 1, HELLO, 5, room, 4), "18 BadBuffer");
  is_refused(coding_encode_one(2, 1, HELLO, 5, room, 5), "18 BadBuffer");
  is_refused(coding_decode(2, twice, 2, pieces, 2, room, 5), "15 BadPieces");
  is_refused(coding_decode(2, twice, 2, one_twice, 2, room, 5), "15 BadPieces");
  is_refused(coding_decode(2, points, 2, pieces, 1, room, 5), "15 BadPieces");
  is_refused(coding_repair(2, points, 2, pieces, 2, 0, room, 5, other, 2), "18 BadBuffer");
  is_refused(coding_repair(2, twice, 2, pieces, 2, 0, room, 5, other, 3), "15 BadPieces");
  is_refused(coding_repair_fragment(2, points, 2, pieces, 2, 0, 5, other, 2), "18 BadBuffer");
  is_refused(coding_repair_fragment(2, twice, 2, pieces, 2, 0, 5, other, 3), "15 BadPieces");
  is_refused(coding_repair_fragment(2, points, 2, wrong, 2, 0, 5, other, 3), "15 BadPieces");
  is_refused(coding_repair_fragment(0, points, 2, pieces, 2, 0, 5, other, 3), "15 BadPieces");
  expect(memcmp(room, SAME, 12) == 0 && memcmp(other, SAME, 3) == 0, "a refused call changes nothing");
}

static void gives_texts(void) {
  is_refused(0, "0 Done");
  is_refused(1, "1 NoMemory");
  is_refused(2, "2 BadLayout");
  is_refused(15, "15 BadPieces");
  is_refused(17, "17 Stranger");
  is_refused(18, "18 BadBuffer");
  expect(strcmp(coding_string(200), "Unknown") == 0, "the text of no answer");
}

static void codes_hello(void) {
  uint8_t room[12], other[3];
  size_t length;
  const uint8_t points[2] = {3, 1};
  const struct coding_bytes pieces[2] = {THREE, ONE};

  expect(coding_fragment_length(2, 5, &length) == CODING_DONE && length == 3, "a fragment's length");
  is_done(coding_encode(2, 4, HELLO, 5, room, 12), room, FRAGMENTS, 12, "the fragments");
  is_done(coding_encode_one(2, 2, HELLO, 5, other, 3), other, FRAGMENTS + 6, 3, "fragment 2");
  is_done(coding_encode_one(2, 3, HELLO, 5, other, 3), other, FRAGMENTS + 9, 3, "fragment 3");
  is_done(coding_decode(2, points, 2, pieces, 2, room, 5), room, "hello", 5, "the value");
  memcpy(room, SAME, 12);
  is_done(coding_repair(2, points, 2, pieces, 2, 2, room, 5, other, 3), other, FRAGMENTS + 6, 3, "a repair");
  expect(memcmp(room, "hello", 5) == 0, "a repair leaves the value");
  memcpy(other, SAME, 3);
  is_done(coding_repair_fragment(2, points, 2, pieces, 2, 2, 5, other, 3), other, FRAGMENTS + 6, 3, "fragment 2 again");
}

/* What ISA-L's `ec_encode_data` gives for the rows `i^0, i^1, i^2` of the points 254, 3 and 17. */
static void decodes_what_isa_l_coded(void) {
  uint8_t value[26], fragment[9];
  const uint8_t points[3] = {254, 3, 17};
  const struct coding_bytes pieces[3] = {{(const uint8_t *)"\x62\xe6\xcb\x1e\xdc\xd1\xf2\x85\xd3", 9},
                                         {(const uint8_t *)"\x34\x78\x4c\xb7\x3a\x69\x30\x50\x05", 9},
                                         {(const uint8_t *)"\x54\x4c\xce\xf6\xda\x47\x05\x1d\x7f", 9}};
  const char *text = "Any k pieces give it back.";

  is_done(coding_decode(3, points, 3, pieces, 3, value, 26), value, text, 26, "the value of three fragments");
  memset(value, 0, 26);
  is_done(coding_repair(3, points, 3, pieces, 3, 0, value, 26, fragment, 9), fragment, text, 9, "block 0");
  expect(memcmp(value, text, 26) == 0, "a repair of three leaves the value");
  memset(fragment, 0, 9);
  is_done(coding_repair_fragment(3, points, 3, pieces, 3, 0, 26, fragment, 9), fragment, text, 9, "block 0 alone");
}

int main(int argc, char **argv) {
  refuses_and_changes_nothing();
  gives_texts();
  codes_hello();
  decodes_what_isa_l_coded();
  expect(argc == 2 && strcmp(coding_processor(), argv[1]) == 0, "the level of the processor");
  return 0;
}
