#include "frame.h"

#include <string.h>

/* Reads a line such as "$5\r\n" at `at`. The `next` place is behind it. */
static enum found scan_line(const char *bytes, size_t length, size_t at, char type, size_t most, size_t *number,
                            size_t *next) {
    if (at == length)
        return MORE;
    if (bytes[at] != type)
        return FAULT;
    size_t digits = at + 1, value = 0;
    for (at = digits; at < length && bytes[at] >= '0' && bytes[at] <= '9'; at++) {
        if (at > digits && value == 0)
            return FAULT;
        value = 10 * value + (size_t)(bytes[at] - '0');
        if (value > most)
            return FAULT;
    }
    if (at == length)
        return MORE;
    if (at == digits || bytes[at] != '\r')
        return FAULT;
    if (at + 1 == length)
        return MORE;
    *number = value;
    *next = at + 2;
    return bytes[at + 1] == '\n' ? FRAME : FAULT;
}

/* Goes past the next string. */
static enum found scan_string(struct scanner *scanner, const char *bytes, size_t length) {
    size_t size, start;
    enum found found = scan_line(bytes, length, scanner->at, '$', LONGEST_STRING, &size, &start);
    if (found != FRAME)
        return found;
    size_t end = start + size;
    if (end + 2 > LONGEST_FRAME)
        return FAULT;
    if (length > end && bytes[end] != '\r')
        return FAULT;
    if (length < end + 2) {
        scanner->need = end + 2;
        return MORE;
    }
    if (bytes[end + 1] != '\n')
        return FAULT;
    scanner->at = end + 2;
    scanner->left--;
    return FRAME;
}

enum found scan(struct scanner *scanner, const char *bytes, size_t length, size_t most_strings) {
    scanner->need = length + 1;
    if (scanner->body == 0) {
        enum found found = scan_line(bytes, length, 0, '*', most_strings, &scanner->count, &scanner->at);
        if (found != FRAME)
            return found;
        scanner->body = scanner->at;
        scanner->left = scanner->count;
    }
    while (scanner->left > 0) {
        enum found found = scan_string(scanner, bytes, length);
        if (found != FRAME)
            return found;
    }
    return FRAME;
}

const char *string_at(const char *bytes, size_t at, size_t *length, size_t *next) {
    size_t start = 0;
    *length = 0;
    scan_line(bytes, SIZE_MAX, at, '$', LONGEST_STRING, length, &start);
    *next = start + *length + 2;
    return bytes + start;
}

char *put_line(char *to, char type, size_t number) {
    char digits[20];
    size_t count = 0;
    do
        digits[count++] = (char)('0' + number % 10);
    while ((number /= 10) > 0);
    *to++ = type;
    while (count > 0)
        *to++ = digits[--count];
    *to++ = '\r';
    *to++ = '\n';
    return to;
}

size_t put_head(char *head, size_t count, const char *address) {
    if (address == NULL)
        return (size_t)(put_line(head, '*', count) - head);
    size_t length = strlen(address);
    char *end = put_line(put_line(head, '*', count + 1), '$', length);
    memcpy(end, address, length);
    memcpy(end + length, "\r\n", 2);
    return (size_t)(end + length + 2 - head);
}

bool read_number(const char *digits, size_t length, uint64_t *number) {
    *number = 0;
    if (length == 0 || (length > 1 && digits[0] == '0'))
        return false;
    for (size_t at = 0; at < length; at++) {
        if (digits[at] < '0' || digits[at] > '9' || *number > (UINT64_MAX - 9) / 10)
            return false;
        *number = 10 * *number + (uint64_t)(digits[at] - '0');
    }
    return true;
}
