#include "inline.h"

#include <string.h>
#include <strings.h>

/* The strings of the command: each word may need a head and a line end. */
static char strings[LONGEST_INLINE + MOST_STRINGS * 16];
static char word[LONGEST_INLINE];

/* What is left of a line. */
struct line {
    const char *at, *end;
};

static bool is_space(char byte) {
    return byte == ' ' || (byte >= '\t' && byte <= '\r');
}

/* The value of a hexadecimal digit, or -1. */
static int digit_of(char byte) {
    static const char digits[] = "0123456789abcdef0123456789ABCDEF";
    const char *found = memchr(digits, byte, sizeof digits - 1);
    return found == NULL ? -1 : (int)((found - digits) % 16);
}

/* The byte that a backslash within "..." stands for; the line goes on behind it. */
static char escaped(struct line *line) {
    static const char names[] = "nrtba", bytes[] = "\n\r\t\b\a";
    char byte = *line->at++;
    if (byte == 'x' && line->end - line->at >= 2 && digit_of(line->at[0]) >= 0 && digit_of(line->at[1]) >= 0) {
        line->at += 2;
        return (char)(digit_of(line->at[-2]) * 16 + digit_of(line->at[-1]));
    }
    const char *found = memchr(names, byte, sizeof names - 1);
    return found == NULL ? byte : bytes[found - names];
}

/* Reads up to the quote that ends a word. False where there is none, or where more than a space follows it. */
static bool read_quoted(struct line *line, char quote, size_t *length) {
    while (line->at < line->end) {
        char byte = *line->at++;
        if (byte == quote)
            return line->at == line->end || is_space(*line->at);
        if (byte == '\\' && line->at < line->end && quote == '"')
            byte = escaped(line);
        else if (byte == '\\' && line->at < line->end && *line->at == quote)
            byte = *line->at++;
        word[(*length)++] = byte;
    }
    return false;
}

/* Reads a word. Quotes may begin within it, as in Redis. False where they have no end. */
static bool read_word(struct line *line, size_t *length) {
    for (*length = 0; line->at < line->end && !is_space(*line->at);) {
        char byte = *line->at++;
        if (byte == '"' || byte == '\'')
            return read_quoted(line, byte, length);
        word[(*length)++] = byte;
    }
    return true;
}

/* Whether a word is how a request of HTTP begins, or its second line. A web page can have a browser send such lines and
 * others behind them, which must not be carried out. */
static bool is_of_a_browser(size_t length) {
    return (length == 4 && strncasecmp(word, "POST", 4) == 0) || (length == 5 && strncasecmp(word, "Host:", 5) == 0);
}

/* Reads the words of a line. Gives what the client is told where they are no command, or NULL. */
static const char *read_words(struct line line, struct command *command) {
    char *end = strings;
    for (;;) {
        while (line.at < line.end && is_space(*line.at))
            line.at++;
        command->length = (size_t)(end - strings);
        if (line.at == line.end)
            return NULL;
        size_t length;
        if (!read_word(&line, &length))
            return "-ERR Protocol error: unbalanced quotes in request\r\n";
        if (++command->count == MOST_STRINGS || (command->count == 1 && is_of_a_browser(length)))
            return "-ERR protocol\r\n";
        end = put_line(end, '$', length);
        memcpy(end, word, length);
        memcpy(end + length, "\r\n", 2);
        end += length + 2;
    }
}

enum found read_line(const char *bytes, size_t length, size_t *looked, struct command *command, const char **error) {
    const char *end = memchr(bytes + *looked, '\n', length - *looked);
    size_t line = end == NULL ? length : (size_t)(end - bytes);
    *looked = line;
    if (line > 0 && bytes[line - 1] == '\r')
        line--;
    *error = "-ERR Protocol error: too big inline request\r\n";
    if (line > LONGEST_INLINE)
        return FAULT;
    if (end == NULL)
        return MORE;
    *command = (struct command){.body = strings, .used = (size_t)(end - bytes) + 1};
    *error = read_words((struct line){bytes, bytes + line}, command);
    return *error == NULL ? FRAME : FAULT;
}
