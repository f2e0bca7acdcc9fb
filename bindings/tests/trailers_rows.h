/* Tables of field lines without a first line, as trailers are (RFC 9112, sections 5 and 7.1.2).
 * Included by `rows.c`. */
#ifndef TRAILERS_ROWS_H
#define TRAILERS_ROWS_H

static const struct {
    const char *text, *fields[3][2];
    size_t count, rest;
} trailers[] = {
    {"\r\n", {{0}}, 0, 0},
    {"\r\n\r\n", {{0}}, 0, 2},
    {"Digest: a=b\r\n\r\n", {{"Digest", "a=b"}}, 1, 0},
    {"Expires: Wed, 21 Oct 2015 07:28:00 GMT\r\nx:\r\nX: \t1 \t2\t \r\n\r\nGET / HTTP/1.1\r\n\r\n",
     {{"Expires", "Wed, 21 Oct 2015 07:28:00 GMT"}, {"x", ""}, {"X", "1 \t2"}},
     3,
     18},
    {"GET: / HTTP/1.1\r\n\r\n", {{"GET", "/ HTTP/1.1"}}, 1, 0},
    {"!#$%&'*+-.^_`|~09azAZ:\xe9\xff:\"\r\n\r\n:", {{"!#$%&'*+-.^_`|~09azAZ", "\xe9\xff:\""}}, 1, 1},
};

static const struct no_head no_trailers[] = {
    {"", "\n", HEAD_ERROR(FIELD_NAME)},
    {"", " a: b\r\n\r\n", HEAD_ERROR(FIELD_NAME)},
    {"", ": b\r\n\r\n", HEAD_ERROR(FIELD_NAME)},
    {"\r", "\r\n", HEAD_ERROR(LINE_ENDING)},
    {"GET", " / HTTP/1.1\r\n\r\n", HEAD_ERROR(COLON)},
    {"a", " : b\r\n\r\n", HEAD_ERROR(COLON)},
    {"a", "\r\n\r\n", HEAD_ERROR(COLON)},
    {"a: b", "\n\r\n", HEAD_ERROR(VALUE)},
    {"a: b", "\x7f\r\n", HEAD_ERROR(VALUE)},
    {"a: b\r", "\r\n", HEAD_ERROR(LINE_ENDING)},
    {"a: b\r\n", " c\r\n\r\n", HEAD_ERROR(FIELD_NAME)},
    {"a: b\r\n", "\n", HEAD_ERROR(FIELD_NAME)},
    {"a: b\r\n\r", "a", HEAD_ERROR(LINE_ENDING)},
};

static void test_trailer(size_t i)
{
    struct pergidau_http_fields out;
    const char *row = trailers[i].text;
    size_t length = strlen(row), count = trailers[i].count;
    uint8_t *text = copied(row, length);
    struct pergidau_field *fields = malloc((count ? count : 1) * sizeof *fields);
    if (fields == NULL) {
        exit(2);
    }
    same("field lines", row, pergidau_http_field_lines(text, length, fields, count, &out),
         PERGIDAU_DONE);
    same("their length", row, (long long)out.length, (long long)(length - trailers[i].rest));
    same("the fields", row, (long long)out.fields, (long long)count);
    same("no error", row, (long long)(out.error_offset + out.error), 0);
    for (size_t k = 0; k < count; k++) {
        shown(row, text, fields[k].name, trailers[i].fields[k][0]);
        shown(row, text, fields[k].value, trailers[i].fields[k][1]);
    }
    for (size_t room = 0; room < count; room++) {
        same("too small", row, pergidau_http_field_lines(text, length, fields, room, &out),
             PERGIDAU_BUFFER_TOO_SMALL);
        same("the required size", row, (long long)out.fields, (long long)count);
        same("no length", row, (long long)(out.length + out.error_offset + out.error), 0);
    }
    for (size_t end = 0; end + trailers[i].rest < length; end++) {
        uint8_t *front = copied(row, end);
        same("a prefix", row, pergidau_http_field_lines(front, end, fields, count, &out),
             PERGIDAU_INCOMPLETE);
        same("nothing else", row,
             (long long)(out.length + out.fields + out.error_offset + out.error), 0);
        free(front);
    }
    free(fields);
    free(text);
}

static void test_trailers(void)
{
    struct pergidau_http_fields out;
    struct pergidau_field fields[4];
    for (size_t i = 0; i < sizeof trailers / sizeof *trailers; i++) {
        test_trailer(i);
        test_end(pergidau_http_field_lines_extent, trailers[i].text,
                 strlen(trailers[i].text) - trailers[i].rest);
    }
    for (size_t i = 0; i < sizeof no_trailers / sizeof *no_trailers; i++) {
        char row[64];
        size_t length = joined(row, sizeof row, &no_trailers[i]);
        uint8_t *text = copied(row, length);
        same("invalid field lines", row, pergidau_http_field_lines(text, length, fields, 4, &out),
             PERGIDAU_INVALID);
        same("the error offset", row, (long long)out.error_offset,
             (long long)strlen(no_trailers[i].front));
        same("the error", row, out.error, no_trailers[i].error);
        same("nothing else", row, (long long)(out.length + out.fields), 0);
        free(text);
        test_no_end(pergidau_http_field_lines_extent, &no_trailers[i]);
    }
    const uint8_t *bytes = (const uint8_t *)"\r\n";
    struct pergidau_http_head_state state = {0};
    size_t far = (size_t)PTRDIFF_MAX + 1, end = 1;
    same("null", "field lines", pergidau_http_field_lines(NULL, 1, fields, 1, &out), PERGIDAU_NULL);
    same("null", "field lines", pergidau_http_field_lines(bytes, 2, NULL, 1, &out), PERGIDAU_NULL);
    same("null", "field lines", pergidau_http_field_lines(bytes, 2, fields, 1, NULL), PERGIDAU_NULL);
    same("too long", "field lines", pergidau_http_field_lines(bytes, far, fields, 1, &out),
         PERGIDAU_TOO_LONG);
    same("too long", "field lines",
         pergidau_http_field_lines(bytes, 2, fields, (size_t)PTRDIFF_MAX / sizeof *fields + 1, &out),
         PERGIDAU_TOO_LONG);
    same("no room", "field lines", pergidau_http_field_lines(bytes, 2, NULL, 0, &out), PERGIDAU_DONE);
    same("nothing", "field lines", pergidau_http_field_lines(NULL, 0, NULL, 0, &out),
         PERGIDAU_INCOMPLETE);
    same("null", "state", pergidau_http_field_lines_extent(NULL, bytes, 2, &end), PERGIDAU_NULL);
    same("null", "lines", pergidau_http_field_lines_extent(&state, NULL, 1, &end), PERGIDAU_NULL);
    same("null", "lines", pergidau_http_field_lines_extent(&state, bytes, 2, NULL), PERGIDAU_NULL);
    same("too long", "lines", pergidau_http_field_lines_extent(&state, bytes, far, &end),
         PERGIDAU_TOO_LONG);
    /* For an invalid state the result is unspecified, but only the input is read. */
    for (size_t place = 0; place < 36; place++) {
        state = (struct pergidau_http_head_state){place % 3, place};
        (void)pergidau_http_field_lines_extent(&state, bytes, 2, &end);
    }
}

#endif
