// Tests a cluster by hiredis, Redis's library for C: hiredis PORT PORT. It ends with status 0 where each answer was the
// one that Redis documents.
#include <hiredis/hiredis.h>
#include <stdarg.h>
#include <stdio.h>
#include <stdlib.h>
#include <string.h>

static redisContext *nodes[2];
static int tests;

// expect NODE TYPE NUMBER BYTES FORMAT ..: asks a node, and compares the answer: its type, and its number or its bytes.
static void expect(int node, int type, long long number, const char *bytes, const char *format, ...) {
    va_list words;
    va_start(words, format);
    redisReply *reply = redisvCommand(nodes[node], format, words);
    va_end(words);
    int is_text = type == REDIS_REPLY_STRING || type == REDIS_REPLY_STATUS || type == REDIS_REPLY_ERROR;
    if (reply == NULL || reply->type != type || (type == REDIS_REPLY_INTEGER && reply->integer != number) ||
        (is_text && (reply->len != strlen(bytes) || memcmp(reply->str, bytes, reply->len) != 0))) {
        fprintf(stderr, "hiredis: another answer to: %s\n", format);
        exit(1);
    }
    freeReplyObject(reply);
    tests++;
}

static void pipeline(void) {
    for (int n = 0; n < 20; n++) {
        redisAppendCommand(nodes[0], "SET piped-%d %d", n, n);
        redisAppendCommand(nodes[0], "STRLEN piped-%d", n);
    }
    for (int n = 0; n < 20; n++) {
        redisReply *set = NULL, *length = NULL;
        if (redisGetReply(nodes[0], (void **)&set) != REDIS_OK ||
            redisGetReply(nodes[0], (void **)&length) != REDIS_OK ||
            set->type != REDIS_REPLY_STATUS || length->type != REDIS_REPLY_INTEGER || length->integer != 1 + (n > 9)) {
            fprintf(stderr, "hiredis: another answer in a pipeline\n");
            exit(1);
        }
        freeReplyObject(set);
        freeReplyObject(length);
    }
    tests++;
}

static void greeting(void) {
    redisReply *reply = redisCommand(nodes[0], "HELLO 2");
    if (reply == NULL || reply->type != REDIS_REPLY_ARRAY || reply->elements != 14 ||
        reply->element[5]->integer != 2 || strcmp(reply->element[11]->str, "master") != 0) {
        fprintf(stderr, "hiredis: another answer to: HELLO 2\n");
        exit(1);
    }
    freeReplyObject(reply);
    tests++;
}

int main(int count, char **words) {
    for (int node = 0; node < 2 && node + 1 < count; node++)
        nodes[node] = redisConnect("127.0.0.1", atoi(words[node + 1]));
    if (nodes[1] == NULL || nodes[0]->err || nodes[1]->err) {
        fprintf(stderr, "hiredis: no connection\n");
        return 1;
    }
    expect(0, REDIS_REPLY_NIL, 0, "", "GET hiredis");
    expect(0, REDIS_REPLY_INTEGER, 0, "", "EXISTS hiredis");
    expect(0, REDIS_REPLY_STATUS, 0, "OK", "SET hiredis %s", "a value");
    expect(1, REDIS_REPLY_STRING, 0, "a value", "GET hiredis");
    expect(1, REDIS_REPLY_INTEGER, 7, "", "STRLEN hiredis");
    expect(1, REDIS_REPLY_INTEGER, 1, "", "EXISTS hiredis");
    expect(0, REDIS_REPLY_STATUS, 0, "OK", "SELECT 0");
    expect(0, REDIS_REPLY_ERROR, 0, "ERR DB index is out of range", "SELECT 7");
    expect(0, REDIS_REPLY_ERROR, 0, "NOPROTO unsupported protocol version", "HELLO 9");
    expect(0, REDIS_REPLY_ERROR, 0, "ERR values do not expire in this store; nothing was changed",
           "SETEX hiredis 10 other");
    expect(1, REDIS_REPLY_STRING, 0, "a value", "GET hiredis");
    expect(0, REDIS_REPLY_INTEGER, 18, "", "COMMAND COUNT");
    greeting();
    pipeline();
    redisFree(nodes[0]);
    redisFree(nodes[1]);
    printf("Ran %d tests\n", tests);
    return 0;
}
