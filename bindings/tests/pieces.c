/* Times a long reply of Redis that arrives in chunks: an array of bulk strings, of 2.7 megabytes, in
 * chunks of 1,460 bytes, the payload of a packet.
 *
 *     pieces         with pergidau_resp_extent, then one call that reads the reply
 *     pieces all     also with pergidau_resp_reply_partial only, which is slow
 *
 * Exits with 1 if the end of the reply is wrong. */
#include <stdio.h>
#include <stdlib.h>
#include <string.h>
#include <time.h>

#include "pergidau.h"

enum { ELEMENTS = 100000, PIECE = 1460 };

static double now(void)
{
    struct timespec time;
    clock_gettime(CLOCK_MONOTONIC, &time);
    return (double)time.tv_sec + (double)time.tv_nsec / 1e9;
}

/* Returns the array: its first line, and `ELEMENTS` strings of 20 bytes. */
static char *made(size_t *length)
{
    char *text = malloc(32 + 28 * (size_t)ELEMENTS);
    if (text == NULL) {
        exit(2);
    }
    size_t end = (size_t)sprintf(text, "*%d\r\n", ELEMENTS);
    for (int i = 0; i < ELEMENTS; i++) {
        end += (size_t)sprintf(text + end, "$20\r\nvalue:%014d\r\n", i);
    }
    *length = end;
    return text;
}

static size_t by_extent(const uint8_t *bytes, size_t length, struct pergidau_resp_value *out)
{
    struct pergidau_resp_reply_state state = {0};
    size_t end = 0, have = 0;
    enum pergidau_code code = PERGIDAU_INCOMPLETE;
    while (code == PERGIDAU_INCOMPLETE && have < length) {
        have = length - have < PIECE ? length : have + PIECE;
        code = pergidau_resp_extent(&state, bytes, have, 2, &end);
    }
    if (code == PERGIDAU_DONE) {
        code = pergidau_resp_reply(bytes, end, 2, 1, out);
    }
    return code == PERGIDAU_DONE ? have : 0;
}

static size_t by_pieces(const uint8_t *bytes, size_t length, struct pergidau_resp_value *out)
{
    size_t have = 0;
    enum pergidau_code code = PERGIDAU_INCOMPLETE;
    while (code == PERGIDAU_INCOMPLETE && have < length) {
        have = length - have < PIECE ? length : have + PIECE;
        code = pergidau_resp_reply_partial(bytes, have, 2, 1, out);
    }
    return code == PERGIDAU_DONE ? have : 0;
}

int main(int count, char **words)
{
    size_t length;
    const uint8_t *bytes = (const uint8_t *)made(&length);
    size_t (*const ways[])(const uint8_t *, size_t, struct pergidau_resp_value *) = {by_extent, by_pieces};
    const char *const names[] = {"resp_extent, then resp_reply", "resp_reply_partial"};
    int wrong = 0;
    for (int i = 0; i < (count > 1 && !strcmp(words[1], "all") ? 2 : 1); i++) {
        struct pergidau_resp_value reply = {0};
        double begun = now();
        size_t have = ways[i](bytes, length, &reply);
        printf("%s: %zu bytes, %.3f s\n", names[i], length, now() - begun);
        wrong |= have != length || reply.length != length || reply.elements != ELEMENTS;
    }
    free((void *)bytes);
    return wrong;
}
