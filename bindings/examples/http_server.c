/*
 * An HTTP/1.1 server for one connection, over the standard input and output. `GET /hello` greets, and
 * `POST /echo` returns its body, which may be chunked. Requests whose end is ambiguous are rejected, and
 * then the connection ends. Its time is linear in the input, in chunks of any size, and each head is
 * parsed once.
 */
#include <stdbool.h>
#include <stdio.h>
#include <string.h>
#include <strings.h>
#include <unistd.h>

#include "pergidau.h"

enum { ROOM = 4096, MOST_FIELDS = 16, MOST_OTHERS = 16384 };

static uint8_t input[ROOM], body[ROOM];
static size_t input_length, body_length;

/* Reads the next input. Returns false if the buffer is full, or at the end of the input. */
static bool more(void)
{
    ssize_t came = read(STDIN_FILENO, input + input_length, ROOM - input_length);
    input_length += came > 0 ? (size_t)came : 0;
    return came > 0;
}

static void drop(size_t count)
{
    input_length -= count;
    memmove(input, input + count, input_length);
}

/* Sends a response. Returns whether the connection stays open. */
static bool answer(const char *status, const void *text, size_t length, bool keeps)
{
    const char *connection = keeps ? "keep-alive" : "close";
    printf("HTTP/1.1 %s\r\nContent-Length: %zu\r\nConnection: %s\r\n\r\n", status, length, connection);
    fwrite(text, 1, length, stdout);
    return fflush(stdout) == 0 && keeps;
}

static bool reject(const char *status, const char *why)
{
    return answer(status, why, strlen(why), false);
}

static bool is(struct pergidau_span at, const char *word)
{
    return at.length == strlen(word) && !strncasecmp((const char *)input + at.offset, word, at.length);
}

/* Whether the first field of this name, if there is one, has another value. */
static bool differs(const struct pergidau_field *fields, size_t count, const char *name, const char *word)
{
    size_t at;
    return pergidau_http_field(input, input_length, fields, count, (const uint8_t *)name, strlen(name), &at)
        == PERGIDAU_DONE && !is(fields[at].value, word);
}

static void append(size_t offset, size_t length)
{
    memcpy(body + body_length, input + offset, length);
    body_length += length;
}

static bool read_counted(uint64_t left)
{
    if (left > ROOM) {
        return reject("413 Content Too Large", "");
    }
    while (left > 0 && (input_length > 0 || more())) {
        size_t now = left < input_length ? (size_t)left : input_length;
        append(0, now);
        drop(now);
        left -= now;
    }
    return left == 0;
}

static bool read_chunked(void)
{
    struct pergidau_chunked_state state = {0};
    /* A chunk may have one byte of data, and a long extension: the limits of the decoder are for each
     * chunk, so the sum of bytes that are not data has a limit here. */
    size_t taken = 0;
    for (;;) {
        struct pergidau_chunked_step step;
        enum pergidau_code code = pergidau_http_chunked(&state, input, input_length, &step);
        if (code == PERGIDAU_INVALID) {
            return reject("400 Bad Request", pergidau_chunked_error_message(step.error));
        }
        if (step.kind == PERGIDAU_CHUNKED_DATA) {
            if (step.span.length > ROOM - body_length) {
                return reject("413 Content Too Large", "");
            }
            append(step.span.offset, step.span.length);
        }
        taken += step.taken;
        if (taken - body_length > MOST_OTHERS) {
            return reject("413 Content Too Large", "");
        }
        drop(step.taken);
        if (code == PERGIDAU_END || (code == PERGIDAU_INCOMPLETE && !more())) {
            return code == PERGIDAU_END;
        }
    }
}

/* Serves the request whose head has this length. Returns whether the connection stays open. */
static bool serve(size_t length)
{
    struct pergidau_field fields[MOST_FIELDS];
    struct pergidau_http_request head;
    struct pergidau_http_framing found;
    if (pergidau_http_head(input, length, fields, MOST_FIELDS, &head) != PERGIDAU_DONE) {
        return reject("431 Request Header Fields Too Large", "");
    }
    if (pergidau_http_request_framing(input, length, fields, MOST_FIELDS, &head, &found) != PERGIDAU_DONE) {
        return reject("400 Bad Request", pergidau_http_error_message(found.body.error));
    }
    if (head.major != 1) {
        return reject("505 HTTP Version Not Supported", "");
    }
    if (differs(fields, head.fields, "Transfer-Encoding", "chunked")) {
        return reject("501 Not Implemented", "");
    }
    body_length = 0;
    bool hello = is(head.method, "GET") && is(head.target, "/hello");
    bool echo = is(head.method, "POST") && is(head.target, "/echo");
    drop(length);
    bool is_chunked = found.body.kind == PERGIDAU_HTTP_BODY_CHUNKED;
    if (!(is_chunked ? read_chunked() : read_counted(found.body.length))) {
        return false;
    }
    return hello ? answer("200 OK", "hello\n", 6, found.persists)
        : echo   ? answer("200 OK", body, body_length, found.persists)
                 : answer("404 Not Found", "", 0, found.persists);
}

int main(void)
{
    for (bool keeps = true; keeps;) {
        struct pergidau_http_head_state state = {0};
        enum pergidau_code code = PERGIDAU_INCOMPLETE;
        size_t length = 0;
        /* An empty line may precede a request (section 2.2 of RFC 9112). */
        while ((input_length == 0 || (input_length == 1 && input[0] == '\r')) && more()) {}
        drop(input_length >= 2 && !memcmp(input, "\r\n", 2) ? 2 : 0);
        do {
            code = pergidau_http_head_extent(&state, input, input_length, &length);
        } while (code == PERGIDAU_INCOMPLETE && more());
        keeps = code == PERGIDAU_DONE ? serve(length)
            : code == PERGIDAU_INVALID ? reject("400 Bad Request", "invalid head")
            : input_length == ROOM && reject("431 Request Header Fields Too Large", "");
    }
    return 0;
}
