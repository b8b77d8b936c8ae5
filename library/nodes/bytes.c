#include "bytes.h"

#include <stdarg.h>
#include <stdlib.h>
#include <string.h>

void bytes_add(struct bytes *bytes, const void *added, size_t count) {
  if (bytes->room - bytes->length < count) {
    bytes->room = 2 * bytes->length + count + 64;
    bytes->first = realloc(bytes->first, bytes->room);
    if (bytes->first == NULL)
      abort();
  }
  if (count > 0)
    memcpy(bytes->first + bytes->length, added, count);
  bytes->length += count;
}

void bytes_drop(struct bytes *bytes, size_t count) {
  bytes->length -= count;
  if (bytes->length > 0)
    memmove(bytes->first, bytes->first + count, bytes->length);
}

void bytes_free(struct bytes *bytes) {
  free(bytes->first);
  *bytes = (struct bytes){0};
}

/* Reads a line such as "$5\r\n". Returns the number of its bytes, or 0 if it is not whole. */
static size_t line_at(const uint8_t *bytes, size_t length, char kind, size_t *number) {
  *number = 0;
  if (length == 0 || bytes[0] != (uint8_t)kind)
    return 0;
  for (size_t at = 1; at + 1 < length; at++) {
    if (bytes[at] == '\r')
      return at + 2;
    *number = 10 * *number + (size_t)(bytes[at] - '0');
  }
  return 0;
}

bool frame_at(const uint8_t *bytes, size_t length, struct frame *frame) {
  size_t size, at = line_at(bytes, length, '*', &frame->count);
  if (at == 0 || frame->count == 0)
    return false;
  for (size_t i = 0; i < frame->count; i++) {
    size_t line = line_at(bytes + at, length - at, '$', &size);
    if (line == 0 || length - at - line < size + 2)
      return false;
    if (i == 0) {
      frame->address = (const char *)bytes + at + line;
      frame->address_length = size;
      frame->rest = bytes + at + line + size + 2;
    }
    at += line + size + 2;
  }
  frame->rest_length = (size_t)(bytes + at - frame->rest);
  frame->length = at;
  return true;
}

size_t answer_in(const struct frame *frame, char *to, size_t room) {
  const uint8_t *rest = frame->rest;
  size_t length = 0, count;
  for (size_t i = 1; i < frame->count; i++) {
    rest += line_at(rest, SIZE_MAX, '$', &count);
    if (length + count >= room)
      abort();
    memcpy(to + length, rest, count);
    length += count;
    rest += count + 2;
  }
  to[length] = 0;
  return length;
}

long number_behind(const struct frame *frame, const char *word) {
  size_t length = strlen(word);
  if (frame->address_length <= length || memcmp(frame->address, word, length) != 0)
    return -1;
  return strtol(frame->address + length, NULL, 10);
}

static void put_line(struct bytes *to, char kind, size_t number) {
  char line[32], *at = line + sizeof line;
  *--at = '\n';
  *--at = '\r';
  for (bool is_first = true; is_first || number > 0; is_first = false, number /= 10)
    *--at = (char)('0' + number % 10);
  *--at = kind;
  bytes_add(to, at, (size_t)(line + sizeof line - at));
}

static void put_string(struct bytes *to, const char *string) {
  put_line(to, '$', strlen(string));
  bytes_add(to, string, strlen(string));
  bytes_add(to, "\r\n", 2);
}

void put_frame(struct bytes *to, const char *address, size_t count, const uint8_t *rest, size_t rest_length) {
  put_line(to, '*', count);
  put_string(to, address);
  bytes_add(to, rest, rest_length);
}

void put_words(struct bytes *to, ...) {
  va_list words, again;
  size_t count = 0;
  va_start(words, to);
  va_copy(again, words);
  while (va_arg(words, const char *) != NULL)
    count++;
  put_line(to, '*', count);
  for (size_t i = 0; i < count; i++)
    put_string(to, va_arg(again, const char *));
  va_end(words);
  va_end(again);
}
