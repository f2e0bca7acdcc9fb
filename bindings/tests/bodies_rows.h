/* Tables of the lengths of bodies (RFC 9112, sections 3.2 and 6.3) and of fields by name. Included by
 * `rows.c`. */
#ifndef BODIES_ROWS_H
#define BODIES_ROWS_H

#include "framing_rows.h"

/* The fields of a POST request of HTTP/1.1 with a Host field, and the result. */
static const struct {
    const char *fields;
    enum pergidau_http_body_kind kind;
    enum pergidau_http_error error;
    uint64_t length;
} request_bodies[] = {
    {"", PERGIDAU_HTTP_BODY_NONE, PERGIDAU_HTTP_ERROR_NONE, 0},
    {"X: Content-Length: 5\r\n", PERGIDAU_HTTP_BODY_NONE, PERGIDAU_HTTP_ERROR_NONE, 0},
    {"content-length:5\r\n", PERGIDAU_HTTP_BODY_LENGTH, PERGIDAU_HTTP_ERROR_NONE, 5},
    {"Content-Length: 0\r\n", PERGIDAU_HTTP_BODY_LENGTH, PERGIDAU_HTTP_ERROR_NONE, 0},
    {"Content-Length: 007 , 007\r\n", PERGIDAU_HTTP_BODY_LENGTH, PERGIDAU_HTTP_ERROR_NONE, 7},
    {"Content-Length: 18446744073709551615\r\n", PERGIDAU_HTTP_BODY_LENGTH, PERGIDAU_HTTP_ERROR_NONE,
     UINT64_MAX},
    {"Transfer-Encoding: CHUNKED\r\n", PERGIDAU_HTTP_BODY_CHUNKED, PERGIDAU_HTTP_ERROR_NONE, 0},
    {"Transfer-Encoding: gzip, ,\tchunked\r\n", PERGIDAU_HTTP_BODY_CHUNKED, PERGIDAU_HTTP_ERROR_NONE, 0},
    {"Transfer-Encoding: gzip\r\nTransfer-Encoding: chunked\r\n", PERGIDAU_HTTP_BODY_CHUNKED,
     PERGIDAU_HTTP_ERROR_NONE, 0},
    {"host: b\r\n", PERGIDAU_HTTP_BODY_NONE, PERGIDAU_HTTP_ERROR_MANY_HOSTS, 0},
    {"Content-Length: 5\r\nTransfer-Encoding: chunked\r\n", PERGIDAU_HTTP_BODY_NONE,
     PERGIDAU_HTTP_ERROR_LENGTH_AND_CODING, 0},
    {"Transfer-Encoding: chunked, gzip\r\n", PERGIDAU_HTTP_BODY_NONE,
     PERGIDAU_HTTP_ERROR_CHUNKED_NOT_LAST, 0},
    {"Transfer-Encoding: chunked\r\nTransfer-Encoding: chunked\r\n", PERGIDAU_HTTP_BODY_NONE,
     PERGIDAU_HTTP_ERROR_CHUNKED_NOT_LAST, 0},
    {"Transfer-Encoding: gzip\r\n", PERGIDAU_HTTP_BODY_NONE, PERGIDAU_HTTP_ERROR_NOT_CHUNKED, 0},
    {"Transfer-Encoding: a;b=\",\", chunked\r\n", PERGIDAU_HTTP_BODY_CHUNKED, PERGIDAU_HTTP_ERROR_NONE,
     0},
    {"Transfer-Encoding: a b, chunked\r\n", PERGIDAU_HTTP_BODY_NONE,
     PERGIDAU_HTTP_ERROR_INVALID_CODING, 0},
    {"Transfer-Encoding:\r\n", PERGIDAU_HTTP_BODY_NONE, PERGIDAU_HTTP_ERROR_NOT_CHUNKED, 0},
    {"Content-Length: 5, 6\r\n", PERGIDAU_HTTP_BODY_NONE, PERGIDAU_HTTP_ERROR_LENGTHS_DIFFER, 0},
    {"Content-Length: 5\r\nContent-Length: 05\r\n", PERGIDAU_HTTP_BODY_NONE,
     PERGIDAU_HTTP_ERROR_LENGTHS_DIFFER, 0},
    {"Content-Length: ,5\r\n", PERGIDAU_HTTP_BODY_NONE, PERGIDAU_HTTP_ERROR_LENGTHS_DIFFER, 0},
    {"Content-Length: +5\r\n", PERGIDAU_HTTP_BODY_NONE, PERGIDAU_HTTP_ERROR_LENGTH_NOT_A_NUMBER, 0},
    {"Content-Length:\r\n", PERGIDAU_HTTP_BODY_NONE, PERGIDAU_HTTP_ERROR_LENGTH_NOT_A_NUMBER, 0},
    {"Content-Length: 18446744073709551616\r\n", PERGIDAU_HTTP_BODY_NONE,
     PERGIDAU_HTTP_ERROR_LENGTH_TOO_LARGE, 0},
    {"Content-Length : 5\r\n", PERGIDAU_HTTP_BODY_NONE, PERGIDAU_HTTP_ERROR_HEAD, 0},
};

/* Heads of requests, and the error. */
static const struct {
    const char *head;
    enum pergidau_http_error error;
} request_heads[] = {
    {"GET / HTTP/1.1\r\nHost: a:80\r\n\r\n", PERGIDAU_HTTP_ERROR_NONE},
    {"GET / HTTP/1.1\r\nHost: a, b\r\n\r\n", PERGIDAU_HTTP_ERROR_INVALID_HOST},
    {"GET / HTTP/1.0\r\nHost: a/b@c d\r\n\r\n", PERGIDAU_HTTP_ERROR_INVALID_HOST},
    {"GET /a#b HTTP/1.1\r\nHost: a\r\n\r\n", PERGIDAU_HTTP_ERROR_INVALID_TARGET},
    {"GET d HTTP/1.1\r\n\r\n", PERGIDAU_HTTP_ERROR_INVALID_TARGET},
    {"CONNECT / HTTP/1.1\r\nHost: a\r\n\r\n", PERGIDAU_HTTP_ERROR_INVALID_TARGET},
    {"OPTIONS * HTTP/1.1\r\nHost: a\r\n\r\n", PERGIDAU_HTTP_ERROR_NONE},
    {"CONNECT a:80 HTTP/1.1\r\nHost: a\r\n\r\n", PERGIDAU_HTTP_ERROR_NONE},
};

/* Responses, each with the method of its request. */
static const struct {
    const char *method, *head;
    enum pergidau_http_body_kind kind;
    enum pergidau_http_error error;
    uint64_t length;
} response_bodies[] = {
    {"GET", "HTTP/1.1 200 OK\r\nContent-Length: 5\r\n\r\n", PERGIDAU_HTTP_BODY_LENGTH, PERGIDAU_HTTP_ERROR_NONE, 5},
    {"HEAD", "HTTP/1.1 200 OK\r\nContent-Length: 5\r\n\r\n", PERGIDAU_HTTP_BODY_NONE, PERGIDAU_HTTP_ERROR_NONE, 0},
    {"head", "HTTP/1.1 200 OK\r\nContent-Length: 5\r\n\r\n", PERGIDAU_HTTP_BODY_LENGTH, PERGIDAU_HTTP_ERROR_NONE, 5},
    {"GET", "HTTP/1.1 199\r\nContent-Length: 5\r\n\r\n", PERGIDAU_HTTP_BODY_NONE, PERGIDAU_HTTP_ERROR_NONE, 0},
    {"GET", "HTTP/1.1 204\r\nContent-Length: 5\r\n\r\n", PERGIDAU_HTTP_BODY_NONE, PERGIDAU_HTTP_ERROR_NONE, 0},
    {"GET", "HTTP/1.1 304\r\nTransfer-Encoding: chunked\r\n\r\n", PERGIDAU_HTTP_BODY_NONE, PERGIDAU_HTTP_ERROR_NONE, 0},
    {"CONNECT", "HTTP/1.1 299\r\nContent-Length: 5\r\n\r\n", PERGIDAU_HTTP_BODY_TUNNEL, PERGIDAU_HTTP_ERROR_NONE, 0},
    {"CONNECT", "HTTP/1.1 300\r\nContent-Length: 5\r\n\r\n", PERGIDAU_HTTP_BODY_LENGTH, PERGIDAU_HTTP_ERROR_NONE, 5},
    {"GET", "HTTP/1.1 200\r\n\r\n", PERGIDAU_HTTP_BODY_UNTIL_CLOSE, PERGIDAU_HTTP_ERROR_NONE, 0},
    {"GET", "HTTP/1.1 200\r\nTransfer-Encoding: gzip\r\n\r\n", PERGIDAU_HTTP_BODY_UNTIL_CLOSE, PERGIDAU_HTTP_ERROR_NONE, 0},
    {"GET", "HTTP/1.1 200\r\nTransfer-Encoding: chunked\r\n\r\n", PERGIDAU_HTTP_BODY_CHUNKED, PERGIDAU_HTTP_ERROR_NONE, 0},
    {"GET", "HTTP/1.0 200\r\nTransfer-Encoding: chunked\r\n\r\n", PERGIDAU_HTTP_BODY_NONE, PERGIDAU_HTTP_ERROR_CODING_BEFORE_VERSION, 0},
    {"GET", "HTTP/1.1 200\r\nContent-Length: 5, 6\r\n\r\n", PERGIDAU_HTTP_BODY_NONE, PERGIDAU_HTTP_ERROR_LENGTHS_DIFFER, 0},
    {"GET", "HTTP/1.1\r\n\r\n", PERGIDAU_HTTP_BODY_NONE, PERGIDAU_HTTP_ERROR_HEAD, 0},
    {"HEAD", "GET / HTTP/1.1\r\n\r\n", PERGIDAU_HTTP_BODY_NONE, PERGIDAU_HTTP_ERROR_HEAD, 0},
};

static void test_body_lengths(void)
{
    struct pergidau_http_body out;
    struct pergidau_http_framing framing;
    for (size_t i = 0; i < sizeof request_bodies / sizeof *request_bodies; i++) {
        char head[256];
        const char *fields = request_bodies[i].fields;
        size_t length = (size_t)sprintf(head, "POST / HTTP/1.1\r\nHost: a\r\n%s\r\n", fields);
        uint8_t *bytes = copied(head, length);
        same_body(fields, pergidau_http_request_body(bytes, length, &out), &out,
                  request_bodies[i].kind, request_bodies[i].error, request_bodies[i].length);
        if (request_bodies[i].error != PERGIDAU_HTTP_ERROR_HEAD) {
            same_body(fields, request_framing(fields, bytes, length, &framing), &framing.body,
                      request_bodies[i].kind, request_bodies[i].error, request_bodies[i].length);
        }
        same_body(fields, pergidau_http_request_body(bytes, length - 1, &out), &out,
                  PERGIDAU_HTTP_BODY_NONE, PERGIDAU_HTTP_ERROR_HEAD, 0);
        free(bytes);
    }
    for (size_t i = 0; i < sizeof request_heads / sizeof *request_heads; i++) {
        const char *head = request_heads[i].head;
        uint8_t *bytes = copied(head, strlen(head));
        same_body(head, pergidau_http_request_body(bytes, strlen(head), &out), &out,
                  PERGIDAU_HTTP_BODY_NONE, request_heads[i].error, 0);
        same_body(head, request_framing(head, bytes, strlen(head), &framing), &framing.body,
                  PERGIDAU_HTTP_BODY_NONE, request_heads[i].error, 0);
        free(bytes);
    }
    for (size_t i = 0; i < sizeof response_bodies / sizeof *response_bodies; i++) {
        const char *head = response_bodies[i].head, *method = response_bodies[i].method;
        uint8_t *bytes = copied(head, strlen(head)), *word = copied(method, strlen(method));
        same_body(head, pergidau_http_response_body(word, strlen(method), bytes, strlen(head), &out),
                  &out, response_bodies[i].kind, response_bodies[i].error, response_bodies[i].length);
        if (response_bodies[i].error != PERGIDAU_HTTP_ERROR_HEAD) {
            same_body(head, response_framing(head, word, strlen(method), bytes, strlen(head), &framing),
                      &framing.body, response_bodies[i].kind, response_bodies[i].error,
                      response_bodies[i].length);
            same_span(head, framing.rejected, nowhere);
        }
        free(bytes);
        free(word);
    }
    const char *old = "GET / HTTP/1.0\r\n\r\n", *none = "GET / HTTP/1.1\r\n\r\n";
    same_body(old, pergidau_http_request_body((const uint8_t *)old, strlen(old), &out), &out,
              PERGIDAU_HTTP_BODY_NONE, PERGIDAU_HTTP_ERROR_NONE, 0);
    same_body(none, pergidau_http_request_body((const uint8_t *)none, strlen(none), &out), &out,
              PERGIDAU_HTTP_BODY_NONE, PERGIDAU_HTTP_ERROR_MISSING_HOST, 0);
    same("null", "body", pergidau_http_request_body(NULL, 1, &out), PERGIDAU_NULL);
    same("null", "body", pergidau_http_request_body((const uint8_t *)old, 1, NULL), PERGIDAU_NULL);
    same("null", "body", pergidau_http_response_body(NULL, 1, (const uint8_t *)old, 1, &out), PERGIDAU_NULL);
    same("null", "body", pergidau_http_response_body(NULL, 0, NULL, 1, &out), PERGIDAU_NULL);
    same("null", "body", pergidau_http_response_body(NULL, 0, NULL, 0, NULL), PERGIDAU_NULL);
    same("nothing", "body", pergidau_http_response_body(NULL, 0, NULL, 0, &out), PERGIDAU_INVALID);
    same("too long", "body",
         pergidau_http_request_body((const uint8_t *)old, (size_t)PTRDIFF_MAX + 1, &out),
         PERGIDAU_TOO_LONG);
}

static void test_fields(void)
{
    static const struct {
        const char *name;
        size_t from;
        enum pergidau_code code;
        size_t index;
    } rows[] = {
        {"Host", 0, PERGIDAU_DONE, 0},  {"hOST", 0, PERGIDAU_DONE, 0},  {"via", 0, PERGIDAU_DONE, 1},
        {"Via", 2, PERGIDAU_DONE, 0},   {"Via", 3, PERGIDAU_END, 0},    {"Hos", 0, PERGIDAU_END, 0},
        {"Hosts", 0, PERGIDAU_END, 0},  {"", 0, PERGIDAU_END, 0},       {"Host", 1, PERGIDAU_END, 0},
    };
    const char *text = "GET / HTTP/1.1\r\nHost: a\r\nVia: b\r\nVIA: c\r\n\r\n";
    size_t length = strlen(text), index = 7;
    uint8_t *bytes = copied(text, length);
    struct pergidau_field fields[3];
    struct pergidau_http_request head;
    same("a head", text, pergidau_http_head(bytes, length, fields, 3, &head), PERGIDAU_DONE);
    for (size_t i = 0; i < sizeof rows / sizeof *rows; i++) {
        const uint8_t *name = (const uint8_t *)rows[i].name;
        same("a field", rows[i].name,
             pergidau_http_field(bytes, length, fields + rows[i].from, 3 - rows[i].from, name,
                                 strlen(rows[i].name), &index),
             rows[i].code);
        same("its index", rows[i].name, (long long)index, (long long)rows[i].index);
    }
    /* Fields that are not within the bytes have no name. */
    fields[0].name = (struct pergidau_span){SIZE_MAX, 4};
    fields[1].name = (struct pergidau_span){length - 3, 4};
    fields[2].name = (struct pergidau_span){16, SIZE_MAX};
    same("outside", "a field",
         pergidau_http_field(bytes, length, fields, 3, (const uint8_t *)"Host", 4, &index),
         PERGIDAU_END);
    same("null", "field", pergidau_http_field(NULL, 1, fields, 1, bytes, 1, &index), PERGIDAU_NULL);
    same("null", "field", pergidau_http_field(bytes, 1, NULL, 1, bytes, 1, &index), PERGIDAU_NULL);
    same("null", "field", pergidau_http_field(bytes, 1, fields, 1, NULL, 1, &index), PERGIDAU_NULL);
    same("null", "field", pergidau_http_field(bytes, 1, fields, 1, bytes, 1, NULL), PERGIDAU_NULL);
    same("too long", "field",
         pergidau_http_field(bytes, 1, fields, (size_t)PTRDIFF_MAX / sizeof *fields + 1, bytes, 1, &index),
         PERGIDAU_TOO_LONG);
    same("nothing", "field", pergidau_http_field(NULL, 0, NULL, 0, NULL, 0, &index), PERGIDAU_END);
    free(bytes);
}

#endif
