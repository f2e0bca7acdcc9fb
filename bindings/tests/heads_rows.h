/* Tables of response heads, and tests that find the end of heads and records incrementally.
 * Included by `rows.c`, which has the tables of request heads and of records. */
#ifndef HEADS_ROWS_H
#define HEADS_ROWS_H

/* ---- response heads */

static const struct {
    const char *text, *reason, *fields[3][2];
    size_t count, rest;
    /* The version, the status code, and the offset of the reason. */
    int major, minor, status;
    size_t offset;
} responses[] = {
    /* The response of RFC 9110, section 3.9, with some of its fields. */
    {"HTTP/1.1 200 OK\r\nDate: Mon, 27 Jul 2009 12:28:53 GMT\r\nServer: Apache\r\n"
     "Content-Length: 51\r\n\r\nHello World!",
     "OK",
     {{"Date", "Mon, 27 Jul 2009 12:28:53 GMT"}, {"Server", "Apache"}, {"Content-Length", "51"}},
     3,
     12,
     1,
     1,
     200,
     13},
    {"HTTP/1.1 404 Not Found\r\nX:\r\n\r\n", "Not Found", {{"X", ""}}, 1, 0, 1, 1, 404, 13},
    {"HTTP/1.1 200 \r\n\r\n", "", {{0}}, 0, 0, 1, 1, 200, 13},
    {"HTTP/1.1 200\r\n\r\n", "", {{0}}, 0, 0, 1, 1, 200, 12},
    {"HTTP/1.0 301  a\t\r\n\r\n\r\n", " a\t", {{0}}, 0, 2, 1, 0, 301, 13},
    {"HTTP/2.9 999 9\r\n\r\n", "9", {{0}}, 0, 0, 2, 9, 999, 13},
    {"HTTP/0.1 000 \xe9\xff\r\n\r\n", "\xe9\xff", {{0}}, 0, 0, 0, 1, 0, 13},
};

static const struct no_head no_responses[] = {
    {"", "\r\nHTTP/1.1 200 OK\r\n\r\n", HEAD_ERROR(VERSION)},
    {"", "GET / HTTP/1.1\r\n\r\n", HEAD_ERROR(VERSION)},
    {"HTTP/", "x.1 200 OK\r\n\r\n", HEAD_ERROR(VERSION)},
    {"HTTP/1", "1 200 OK\r\n\r\n", HEAD_ERROR(VERSION)},
    {"HTTP/1.", "x 200 OK\r\n\r\n", HEAD_ERROR(VERSION)},
    {"HTTP/1.1", "1 200 OK\r\n\r\n", HEAD_ERROR(STATUS_CODE)},
    {"HTTP/1.1", "\r\n\r\n", HEAD_ERROR(STATUS_CODE)},
    {"HTTP/1.1 ", " 200 OK\r\n\r\n", HEAD_ERROR(STATUS_CODE)},
    {"HTTP/1.1 ", "x00 OK\r\n\r\n", HEAD_ERROR(STATUS_CODE)},
    {"HTTP/1.1 2", "x0 OK\r\n\r\n", HEAD_ERROR(STATUS_CODE)},
    {"HTTP/1.1 20", " OK\r\n\r\n", HEAD_ERROR(STATUS_CODE)},
    {"HTTP/1.1 200", "0 OK\r\n\r\n", HEAD_ERROR(STATUS_CODE)},
    {"HTTP/1.1 200", "OK\r\n\r\n", HEAD_ERROR(STATUS_CODE)},
    {"HTTP/1.1 200", "\tOK\r\n\r\n", HEAD_ERROR(STATUS_CODE)},
    {"HTTP/1.1 200", "\n\r\n", HEAD_ERROR(STATUS_CODE)},
    {"HTTP/1.1 200\r", "\r\n", HEAD_ERROR(LINE_ENDING)},
    {"HTTP/1.1 200 ", "\n\r\n", HEAD_ERROR(VALUE)},
    {"HTTP/1.1 200 O", "\x7fK\r\n", HEAD_ERROR(VALUE)},
    {"HTTP/1.1 200 OK", "\n\r\n", HEAD_ERROR(VALUE)},
    {"HTTP/1.1 200 OK\r", "X\r\n", HEAD_ERROR(LINE_ENDING)},
    {"HTTP/1.1 200 OK\r\n", "\n", HEAD_ERROR(FIELD_NAME)},
    {"HTTP/1.1 200 OK\r\n\r", "\r\n", HEAD_ERROR(LINE_ENDING)},
    {"HTTP/1.1 200 OK\r\nX: 1\r\n", " 2\r\n\r\n", HEAD_ERROR(FIELD_NAME)},
};

static void test_response(size_t i)
{
    struct pergidau_http_response out;
    const char *row = responses[i].text;
    size_t length = strlen(row), count = responses[i].count;
    uint8_t *text = copied(row, length);
    struct pergidau_field *fields = malloc((count ? count : 1) * sizeof *fields);
    if (fields == NULL) {
        exit(2);
    }
    for (int is_partial = 0; is_partial < 2; is_partial++) {
        same("http_response_head", row,
             (is_partial ? pergidau_http_response_head_partial : pergidau_http_response_head)(
                 text, length, fields, count, &out),
             PERGIDAU_DONE);
        shown(row, text, out.reason, responses[i].reason);
        same("the reason's offset", row, (long long)out.reason.offset,
             (long long)responses[i].offset);
        same("the major version", row, out.major, responses[i].major);
        same("the minor version", row, out.minor, responses[i].minor);
        same("the status code", row, out.status, responses[i].status);
        same("the length", row, (long long)out.length, (long long)(length - responses[i].rest));
        same("the fields", row, (long long)out.fields, (long long)count);
        same("no error offset", row, (long long)out.error_offset, 0);
        for (size_t k = 0; k < count; k++) {
            shown(row, text, fields[k].name, responses[i].fields[k][0]);
            shown(row, text, fields[k].value, responses[i].fields[k][1]);
        }
    }
    for (size_t room = 0; room < count; room++) {
        same("too small", row, pergidau_http_response_head(text, length, fields, room, &out),
             PERGIDAU_BUFFER_TOO_SMALL);
        same("the required size", row, (long long)out.fields, (long long)count);
    }
    for (size_t end = 0; end + responses[i].rest < length; end++) {
        uint8_t *front = copied(row, end);
        same("a prefix", row, pergidau_http_response_head(front, end, fields, count, &out),
             PERGIDAU_INVALID);
        same("its end", row, (long long)out.error_offset, (long long)end);
        same("its error", row, out.error, PERGIDAU_HTTP_HEAD_ERROR_INCOMPLETE);
        same("partial input", row,
             pergidau_http_response_head_partial(front, end, fields, count, &out),
             PERGIDAU_INCOMPLETE);
        free(front);
    }
    free(fields);
    free(text);
}

static void test_responses(void)
{
    struct pergidau_http_response out;
    struct pergidau_field fields[4];
    for (size_t i = 0; i < sizeof responses / sizeof *responses; i++) {
        test_response(i);
    }
    for (size_t i = 0; i < sizeof no_responses / sizeof *no_responses; i++) {
        char row[64];
        size_t place = strlen(no_responses[i].front);
        size_t length = joined(row, sizeof row, &no_responses[i]);
        uint8_t *text = copied(row, length);
        same("invalid response", row, pergidau_http_response_head(text, length, fields, 4, &out),
             PERGIDAU_INVALID);
        same("the error offset", row, (long long)out.error_offset, (long long)place);
        same("the error", row, out.error, no_responses[i].error);
        same("invalid response", row,
             pergidau_http_response_head_partial(text, length, fields, 4, &out),
             PERGIDAU_INVALID);
        same("the error offset", row, (long long)out.error_offset, (long long)place);
        same("the error", row, out.error, no_responses[i].error);
        free(text);
    }
    const uint8_t *bytes = (const uint8_t *)"H";
    size_t far = (size_t)PTRDIFF_MAX + 1;
    same("null", "response", pergidau_http_response_head(NULL, 1, fields, 1, &out), PERGIDAU_NULL);
    same("null", "response", pergidau_http_response_head(bytes, 1, NULL, 1, &out), PERGIDAU_NULL);
    same("null", "response", pergidau_http_response_head(bytes, 1, fields, 1, NULL),
         PERGIDAU_NULL);
    same("too long", "response", pergidau_http_response_head(bytes, far, fields, 1, &out),
         PERGIDAU_TOO_LONG);
    same("too long", "response",
         pergidau_http_response_head(bytes, 1, fields, (size_t)PTRDIFF_MAX / sizeof *fields + 1,
                                     &out),
         PERGIDAU_TOO_LONG);
    same("no room", "response", pergidau_http_response_head(bytes, 1, NULL, 0, &out),
         PERGIDAU_INVALID);
    same("nothing", "response", pergidau_http_response_head_partial(NULL, 0, NULL, 0, &out),
         PERGIDAU_INCOMPLETE);
}

/* ---- the ends of heads */

typedef enum pergidau_code head_end(struct pergidau_http_head_state *, const uint8_t *, size_t,
                                    size_t *);

/* Makes successive calls, each with `step` more bytes, and returns the last result. */
static enum pergidau_code head_in_turn(head_end *end_of, const char *row, size_t length, size_t step,
                                       size_t *out)
{
    struct pergidau_http_head_state state = {0};
    enum pergidau_code code = PERGIDAU_INCOMPLETE;
    for (size_t have = 0; code == PERGIDAU_INCOMPLETE && have <= length;
         have += length - have < step && have < length ? length - have : step) {
        uint8_t *bytes = copied(row, have);
        code = end_of(&state, bytes, have, out);
        same("the scanned bytes", row, (long long)state.passed,
             code == PERGIDAU_INCOMPLETE ? (long long)have : (long long)*out);
        free(bytes);
    }
    return code;
}

/* A head of `whole` bytes is found in chunks of each size. */
static void test_end(head_end *end_of, const char *row, size_t whole)
{
    size_t out = 1, length = strlen(row);
    for (size_t step = 1; step <= length; step++) {
        same("a head", row, head_in_turn(end_of, row, length, step, &out), PERGIDAU_DONE);
        same("its end", row, (long long)out, (long long)whole);
    }
    same("partial input", row, head_in_turn(end_of, row, whole - 1, 1, &out), PERGIDAU_INCOMPLETE);
    same("no end", row, (long long)out, 0);
}

/* An invalid byte is found in chunks of each size. */
static void test_no_end(head_end *end_of, const struct no_head *it)
{
    char row[64];
    size_t out = 1, place = strlen(it->front), length = joined(row, sizeof row, it);
    for (size_t step = 1; step <= length; step++) {
        same("invalid head", row, head_in_turn(end_of, row, length, step, &out), PERGIDAU_INVALID);
        same("its error offset", row, (long long)out, (long long)place);
    }
    same("a prefix", row, head_in_turn(end_of, row, place, 1, &out), PERGIDAU_INCOMPLETE);
}

static void test_head_extents(void)
{
    for (size_t i = 0; i < sizeof heads / sizeof *heads; i++) {
        test_end(pergidau_http_head_extent, heads[i].text, strlen(heads[i].text) - heads[i].rest);
    }
    for (size_t i = 0; i < sizeof responses / sizeof *responses; i++) {
        test_end(pergidau_http_response_head_extent, responses[i].text,
                 strlen(responses[i].text) - responses[i].rest);
    }
    for (size_t i = 0; i < sizeof no_heads / sizeof *no_heads; i++) {
        test_no_end(pergidau_http_head_extent, &no_heads[i]);
    }
    for (size_t i = 0; i < sizeof no_responses / sizeof *no_responses; i++) {
        test_no_end(pergidau_http_response_head_extent, &no_responses[i]);
    }
    size_t out = 1;
    struct pergidau_http_head_state state = {0};
    const uint8_t *bytes = (const uint8_t *)"A b HTTP/1.1\r\n\r\n";
    same("null", "state", pergidau_http_head_extent(NULL, bytes, 16, &out), PERGIDAU_NULL);
    same("null", "head", pergidau_http_head_extent(&state, NULL, 1, &out), PERGIDAU_NULL);
    same("null", "head", pergidau_http_head_extent(&state, bytes, 16, NULL), PERGIDAU_NULL);
    same("too long", "head",
         pergidau_http_head_extent(&state, bytes, (size_t)PTRDIFF_MAX + 1, &out),
         PERGIDAU_TOO_LONG);
    same("nothing", "head", pergidau_http_head_extent(&state, NULL, 0, &out),
         PERGIDAU_INCOMPLETE);
    same("a state that continues", "head", pergidau_http_head_extent(&state, bytes, 16, &out),
         PERGIDAU_DONE);
    same("it is done again", "head", pergidau_http_head_extent(&state, bytes, 16, &out),
         PERGIDAU_DONE);
    same("its end", "head", (long long)out, 16);
    same("null", "state", pergidau_http_response_head_extent(NULL, bytes, 16, &out), PERGIDAU_NULL);
    same("null", "head", pergidau_http_response_head_extent(&state, NULL, 1, &out), PERGIDAU_NULL);
    same("null", "head", pergidau_http_response_head_extent(&state, bytes, 16, NULL),
         PERGIDAU_NULL);
    same("too long", "head",
         pergidau_http_response_head_extent(&state, bytes, (size_t)PTRDIFF_MAX + 1, &out),
         PERGIDAU_TOO_LONG);
    /* For an invalid state the result is unspecified, but only the input is read. */
    for (size_t place = 0; place < 36; place++) {
        state = (struct pergidau_http_head_state){SIZE_MAX, place};
        (void)pergidau_http_head_extent(&state, bytes, 16, &out);
        state = (struct pergidau_http_head_state){place, SIZE_MAX - place};
        (void)pergidau_http_response_head_extent(&state, bytes, 16, &out);
        state = (struct pergidau_http_head_state){0, place};
        (void)pergidau_http_response_head_extent(&state, bytes, 16, &out);
    }
}

/* ---- the ends of records */

/* Makes successive calls, each with `step` more bytes, and returns the last result. */
static enum pergidau_code record_in_turn(const char *row, size_t length,
                                         const struct pergidau_csv_dialect *dialect, size_t step,
                                         struct pergidau_csv_record_sizes *out)
{
    struct pergidau_csv_record_state state = {0};
    enum pergidau_code code = PERGIDAU_INCOMPLETE;
    for (size_t have = 0; code == PERGIDAU_INCOMPLETE && have <= length;
         have += length - have < step && have < length ? length - have : step) {
        uint8_t *bytes = copied(row, have);
        code = pergidau_csv_record_extent(&state, bytes, have, dialect, out);
        same("no error offset", row, (long long)out->error_offset,
             code == PERGIDAU_INVALID ? (long long)state.passed : 0);
        free(bytes);
    }
    return code;
}

static void test_record_extents(void)
{
    struct pergidau_csv_record_sizes out;
    for (size_t i = 0; i < sizeof records / sizeof *records; i++) {
        const char *row = records[i].text;
        const struct pergidau_csv_dialect *dialect = &csv_dialects[records[i].dialect];
        size_t length = strlen(row), whole = length - records[i].rest, text = 0;
        /* A record without its line ending is incomplete. */
        bool ended = whole > 0 && row[whole - 1] == '\n';
        for (size_t k = 0; k < records[i].count; k++) {
            text += strlen(records[i].fields[k]);
        }
        for (size_t step = 1; step <= length; step++) {
            enum pergidau_code code = record_in_turn(row, length, dialect, step, &out);
            same("a record", row, code, ended ? PERGIDAU_DONE : PERGIDAU_INCOMPLETE);
            same("its fields", row, (long long)out.fields,
                 ended ? (long long)records[i].count : 0);
            same("its text", row, (long long)out.text, ended ? (long long)text : 0);
            same("its length", row, (long long)out.length, ended ? (long long)whole : 0);
        }
        same("partial input", row, record_in_turn(row, whole - 1, dialect, 1, &out),
             PERGIDAU_INCOMPLETE);
    }
    for (size_t i = 0; i < sizeof no_records / sizeof *no_records; i++) {
        const char *row = no_records[i].text;
        const struct pergidau_csv_dialect *dialect = &csv_dialects[no_records[i].dialect];
        size_t length = strlen(row), begins = no_records[i].begins;
        for (size_t step = 1; step <= length; step++) {
            same("invalid record", row, record_in_turn(row, length, dialect, step, &out),
                 begins < length ? PERGIDAU_INVALID : PERGIDAU_INCOMPLETE);
            same("its error offset", row, (long long)out.error_offset,
                 begins < length ? (long long)begins : 0);
        }
        same("a prefix", row, record_in_turn(row, begins, dialect, 1, &out),
             PERGIDAU_INCOMPLETE);
    }
    struct pergidau_csv_record_state state = {0};
    const uint8_t *bytes = (const uint8_t *)"a,\"\"\r\n";
    const struct pergidau_csv_dialect *standard = csv_dialects;
    same("null", "state", pergidau_csv_record_extent(NULL, bytes, 6, standard, &out), PERGIDAU_NULL);
    same("null", "record", pergidau_csv_record_extent(&state, NULL, 1, standard, &out), PERGIDAU_NULL);
    same("null", "record", pergidau_csv_record_extent(&state, bytes, 6, standard, NULL), PERGIDAU_NULL);
    same("null", "dialect", pergidau_csv_record_extent(&state, bytes, 6, NULL, &out),
         PERGIDAU_NULL);
    same("too long", "record",
         pergidau_csv_record_extent(&state, bytes, (size_t)PTRDIFF_MAX + 1, standard, &out),
         PERGIDAU_TOO_LONG);
    same("nothing", "record", pergidau_csv_record_extent(&state, NULL, 0, standard, &out),
         PERGIDAU_INCOMPLETE);
    same("a state that continues", "record", pergidau_csv_record_extent(&state, bytes, 6, standard, &out),
         PERGIDAU_DONE);
    same("its fields", "record", (long long)out.fields, 2);
    /* For an invalid state the result is unspecified, but only the input is read. */
    for (size_t place = 0; place < 8; place++) {
        state = (struct pergidau_csv_record_state){0, SIZE_MAX, SIZE_MAX, place};
        (void)pergidau_csv_record_extent(&state, bytes, 6, standard, &out);
        state = (struct pergidau_csv_record_state){SIZE_MAX, place, SIZE_MAX, place};
        (void)pergidau_csv_record_extent(&state, bytes, 6, &csv_dialects[LF], &out);
    }
}

#endif
