/* Tables of where messages end whose heads were read, what of them is rejected, and whether the
 * connection persists (RFC 9112, sections 3.2, 6.3 and 9.3). Included by `bodies_rows.h`. */
#ifndef FRAMING_ROWS_H
#define FRAMING_ROWS_H

static const struct pergidau_span nowhere = {0, 0};

static void same_body(const char *row, enum pergidau_code code, const struct pergidau_http_body *out,
                      enum pergidau_http_body_kind kind, enum pergidau_http_error error, uint64_t length)
{
    same("a body", row, code,
         error == PERGIDAU_HTTP_ERROR_NONE ? PERGIDAU_DONE : PERGIDAU_INVALID);
    same("its kind", row, out->kind, kind);
    same("its error", row, out->error, error);
    same("its length", row, out->length == length, 1);
}

/* Reads the head of a request with room for other fields after its own, and its framing. */
static enum pergidau_code request_framing(const char *row, const uint8_t *bytes, size_t length,
                                          struct pergidau_http_framing *out)
{
    struct pergidau_field fields[8];
    struct pergidau_http_request head;
    memset(fields, 0, sizeof fields);
    same("a head", row, pergidau_http_head(bytes, length, fields, 8, &head), PERGIDAU_DONE);
    for (size_t at = head.fields; at < 8; at++) {
        fields[at] = fields[0];
    }
    return pergidau_http_request_framing(bytes, length, fields, 8, &head, out);
}

static enum pergidau_code response_framing(const char *row, const uint8_t *method, size_t method_length,
                                           const uint8_t *bytes, size_t length,
                                           struct pergidau_http_framing *out)
{
    struct pergidau_field fields[8];
    struct pergidau_http_response head;
    memset(fields, 0, sizeof fields);
    same("a head", row, pergidau_http_response_head(bytes, length, fields, 8, &head), PERGIDAU_DONE);
    for (size_t at = head.fields; at < 8; at++) {
        fields[at] = fields[0];
    }
    return pergidau_http_response_framing(method, method_length, bytes, length, fields, 8, &head, out);
}

static void same_span(const char *row, struct pergidau_span found, struct pergidau_span want)
{
    same("an offset", row, (long long)found.offset, (long long)want.offset);
    same("a length", row, (long long)found.length, (long long)want.length);
}

/* Heads of requests around what is rejected. */
static const struct {
    const char *before, *rejected, *after;
    enum pergidau_http_error error;
} rejected_parts[] = {
    {"GET ", "/a#b", " HTTP/1.1\r\nHost: a\r\n\r\n", PERGIDAU_HTTP_ERROR_INVALID_TARGET},
    {"OPTIONS ", "**", " HTTP/1.1\r\n\r\n", PERGIDAU_HTTP_ERROR_INVALID_TARGET},
    {"CONNECT ", "a", " HTTP/1.0\r\nHost: a\r\nHost: b\r\n\r\n", PERGIDAU_HTTP_ERROR_INVALID_TARGET},
    {"GET / HTTP/1.1\r\nHost: a\r\n", "Host", ": a\r\n\r\n", PERGIDAU_HTTP_ERROR_MANY_HOSTS},
    {"GET / HTTP/1.0\r\nX: y\r\nhost: a/\r\nHosts: b\r\n", "HOST", ":\r\nHost: c\r\n\r\n",
     PERGIDAU_HTTP_ERROR_MANY_HOSTS},
    {"GET / HTTP/1.1\r\nHost: ", "a b", "\r\n\r\n", PERGIDAU_HTTP_ERROR_INVALID_HOST},
    {"GET / HTTP/1.0\r\nX: y\r\nhOST:\t", "@", " \r\nHosts: a\r\n\r\n", PERGIDAU_HTTP_ERROR_INVALID_HOST},
    {"GET / HTTP/1.1\r\nHosts: a\r\n\r\n", "", "", PERGIDAU_HTTP_ERROR_MISSING_HOST},
    {"GET / HTTP/1.1\r\nHost: a\r\nContent-Length: b\r\n\r\n", "", "",
     PERGIDAU_HTTP_ERROR_LENGTH_NOT_A_NUMBER},
};

static void test_rejected_parts(void)
{
    for (size_t i = 0; i < sizeof rejected_parts / sizeof *rejected_parts; i++) {
        const char *part = rejected_parts[i].rejected;
        struct pergidau_span at = {strlen(rejected_parts[i].before), strlen(part)};
        struct pergidau_http_framing out;
        char head[256];
        size_t length = (size_t)sprintf(head, "%s%s%s", rejected_parts[i].before, part, rejected_parts[i].after);
        uint8_t *bytes = copied(head, length);
        same_body(head, request_framing(head, bytes, length, &out), &out.body, PERGIDAU_HTTP_BODY_NONE,
                  rejected_parts[i].error, 0);
        same_span(head, out.rejected, *part ? at : nowhere);
        same("persists", head, out.persists, 0);
        free(bytes);
    }
}

/* Fields, and whether the connection persists after a message of HTTP/1.0 and of HTTP/1.1. */
static const struct {
    const char *fields;
    bool old, new;
} connections[] = {
    {"", false, true},
    {"Connection: close\r\n", false, false},
    {"connection:CLOSE\r\n", false, false},
    {"Connection: keep-alive\r\n", true, true},
    {"CONNECTION: Keep-Alive\r\n", true, true},
    {"Connection: keep-alive, close\r\n", false, false},
    {"Connection: close\r\nConnection: keep-alive\r\n", false, false},
    {"Connection: keep-alive\r\nX: y\r\nConnection: te ,\tclose\r\n", false, false},
    {"Connection: upgrade\r\nConnection: ,keep-alive,\r\n", true, true},
    {"Connection:\r\n", false, true},
    {"Connection: closed, keep-alive2\r\n", false, true},
    {"Connection: close keep-alive\r\n", false, true},
    {"Connection: \"close\"\r\n", false, true},
    {"Connections: close\r\nKeep-Alive: keep-alive\r\n", false, true},
    {"Proxy-Connection: close\r\nX: close\r\n", false, true},
};

static void test_persistence(void)
{
    for (size_t i = 0; i < 2 * (sizeof connections / sizeof *connections); i++) {
        const char *fields = connections[i / 2].fields;
        bool want = i % 2 ? connections[i / 2].new : connections[i / 2].old;
        struct pergidau_http_framing out;
        char head[256];
        size_t length = (size_t)sprintf(head, "GET / HTTP/1.%zu\r\nHost: a\r\n%s\r\n", i % 2, fields);
        same(fields, "a request", request_framing(head, (const uint8_t *)head, length, &out), PERGIDAU_DONE);
        same(fields, head, out.persists, want);
        length = (size_t)sprintf(head, "HTTP/1.%zu 200\r\nContent-Length: 1\r\n%s\r\n", i % 2, fields);
        same(fields, "a response",
             response_framing(head, (const uint8_t *)"GET", 3, (const uint8_t *)head, length, &out), PERGIDAU_DONE);
        same(fields, head, out.persists, want);
        /* A body that ends with the connection, and a tunnel. */
        length = (size_t)sprintf(head, "HTTP/1.%zu 200\r\n%s\r\n", i % 2, fields);
        for (const char *method = "GET"; method; method = *method == 'G' ? "CONNECT" : NULL) {
            same(fields, method,
                 response_framing(head, (const uint8_t *)method, strlen(method), (const uint8_t *)head, length, &out),
                 PERGIDAU_DONE);
            same(fields, method, out.persists, 0);
        }
    }
}

/* Positions that are not within the bytes, and null pointers. */
static void test_framing_edges(void)
{
    const char *text = "GET / HTTP/1.1\r\nHost: a\r\n\r\n";
    size_t length = strlen(text), far = SIZE_MAX;
    uint8_t *bytes = copied(text, length);
    struct pergidau_field fields[2] = {{{16, 4}, {22, 1}}, {{far, 4}, {length - 1, far}}};
    struct pergidau_http_request head = {.method = {0, 3}, .target = {4, 1}, .fields = far, .major = 1, .minor = 1};
    struct pergidau_http_response response = {.fields = far, .status = 200, .major = 1, .minor = 1};
    struct pergidau_http_framing out;
    same_body("outside", pergidau_http_request_framing(bytes, length, fields, 2, &head, &out), &out.body,
              PERGIDAU_HTTP_BODY_NONE, PERGIDAU_HTTP_ERROR_NONE, 0);
    fields[0].name.offset = length;
    same_body("outside", pergidau_http_request_framing(bytes, length, fields, 2, &head, &out), &out.body,
              PERGIDAU_HTTP_BODY_NONE, PERGIDAU_HTTP_ERROR_MISSING_HOST, 0);
    head.target = (struct pergidau_span){length + 1, far};
    same_body("outside", pergidau_http_request_framing(bytes, length, fields, 2, &head, &out), &out.body,
              PERGIDAU_HTTP_BODY_NONE, PERGIDAU_HTTP_ERROR_INVALID_TARGET, 0);
    same_span("outside", out.rejected, head.target);
    same_body("outside", pergidau_http_response_framing(NULL, 0, bytes, length, fields, 2, &response, &out),
              &out.body, PERGIDAU_HTTP_BODY_UNTIL_CLOSE, PERGIDAU_HTTP_ERROR_NONE, 0);
    same_body("nothing", pergidau_http_request_framing(NULL, 0, NULL, 0, &head, &out), &out.body,
              PERGIDAU_HTTP_BODY_NONE, PERGIDAU_HTTP_ERROR_INVALID_TARGET, 0);
    same("null", "framing", pergidau_http_request_framing(NULL, 1, fields, 2, &head, &out), PERGIDAU_NULL);
    same("null", "framing", pergidau_http_request_framing(bytes, 1, NULL, 2, &head, &out), PERGIDAU_NULL);
    same("null", "framing", pergidau_http_request_framing(bytes, 1, fields, 2, NULL, &out), PERGIDAU_NULL);
    same("null", "framing", pergidau_http_request_framing(bytes, 1, fields, 2, &head, NULL), PERGIDAU_NULL);
    same("null", "framing", pergidau_http_response_framing(NULL, 1, bytes, 1, fields, 2, &response, &out),
         PERGIDAU_NULL);
    same("null", "framing", pergidau_http_response_framing(bytes, 1, NULL, 1, fields, 2, &response, &out),
         PERGIDAU_NULL);
    same("null", "framing", pergidau_http_response_framing(bytes, 1, bytes, 1, NULL, 2, &response, &out),
         PERGIDAU_NULL);
    same("null", "framing", pergidau_http_response_framing(bytes, 1, bytes, 1, fields, 2, NULL, &out),
         PERGIDAU_NULL);
    same("null", "framing", pergidau_http_response_framing(bytes, 1, bytes, 1, fields, 2, &response, NULL),
         PERGIDAU_NULL);
    same("too long", "framing",
         pergidau_http_request_framing(bytes, length, fields, (size_t)PTRDIFF_MAX / sizeof *fields + 1, &head, &out),
         PERGIDAU_TOO_LONG);
    same("too long", "framing",
         pergidau_http_response_framing(bytes, (size_t)PTRDIFF_MAX + 1, bytes, 1, fields, 2, &response, &out),
         PERGIDAU_TOO_LONG);
    free(bytes);
}

static void test_framings(void)
{
    test_rejected_parts();
    test_persistence();
    test_framing_edges();
}

#endif
