/* Tables of records of comma-separated values and of Redis commands that are written. Included by
 * `rows.c`. */
#ifndef WRITING_ROWS_H
#define WRITING_ROWS_H

enum { MOST_SLICES = 4, SPARE = 3 };

/* A slice of exactly these bytes, so that a read past them is detected. */
static struct pergidau_bytes slice_of(const char *text)
{
    size_t length = strlen(text);
    return (struct pergidau_bytes){copied(text, length), length};
}

static void free_slices(const struct pergidau_bytes *slices, size_t count)
{
    for (size_t i = 0; i < count; i++) {
        free((uint8_t *)(uintptr_t)slices[i].bytes);
    }
}

/* A call that writes slices in a dialect, or as a command. */
static enum pergidau_code written(const struct pergidau_bytes *slices, size_t count,
                                  const struct pergidau_csv_dialect *dialect, uint8_t *buffer,
                                  size_t room, size_t *out)
{
    return dialect ? pergidau_csv_write(slices, count, dialect, buffer, room, out)
                   : pergidau_resp_command(slices, count, buffer, room, out);
}

/* Writes into a buffer of each size: too small ones stay unchanged, as does what follows the text. */
static void test_written(const struct pergidau_bytes *slices, size_t count,
                         const struct pergidau_csv_dialect *dialect, const char *want)
{
    size_t length = strlen(want), out;
    for (size_t room = 0; room <= length + SPARE; room++) {
        uint8_t *buffer = malloc(room ? room : 1);
        if (buffer == NULL) {
            exit(2);
        }
        memset(buffer, 0xab, room ? room : 1);
        size_t filled = room < length ? 0 : length;
        out = 99;
        same("the code", want, written(slices, count, dialect, buffer, room, &out),
             room < length ? PERGIDAU_BUFFER_TOO_SMALL : PERGIDAU_DONE);
        same("the length", want, (long long)out, (long long)length);
        same("the text", want, memcmp(buffer, want, filled), 0);
        for (size_t at = filled; at < room; at++) {
            same("a byte after the text", want, buffer[at], 0xab);
        }
        free(buffer);
    }
    out = 99;
    same("no buffer", want, written(slices, count, dialect, NULL, 0, &out), PERGIDAU_BUFFER_TOO_SMALL);
    same("the length", want, (long long)out, (long long)length);
}

/* Fields, a dialect, and the record. */
static const struct {
    const char *fields[MOST_SLICES];
    size_t count, dialect;
    const char *text;
} written_records[] = {
    {{"a", "bc", ""}, 3, CRLF, "a,bc,\r\n"},
    {{"a", "b"}, 2, LF, "a,b\n"},
    {{"a", "b"}, 2, EITHER, "a,b\r\n"},
    {{""}, 1, CRLF, "\"\"\r\n"},
    {{"", ""}, 2, LF, ",\n"},
    {{"a b", " "}, 2, LF, "a b, \n"},
    {{"a,b", "c\"d", "\"", "\"\""}, 4, LF, "\"a,b\",\"c\"\"d\",\"\"\"\",\"\"\"\"\"\"\n"},
    {{"a\nb", "c\rd", "\r\n"}, 3, LF, "\"a\nb\",\"c\rd\",\"\r\n\"\n"},
    {{"a\nb", "c\rd"}, 2, EITHER, "\"a\nb\",\"c\rd\"\r\n"},
    {{"a,\"b\"", "c\td", ""}, 3, TABS, "\"a,\"\"b\"\"\"\t\"c\td\"\t\n"},
    {{"a,\"b\"", "c\td"}, 2, SEMICOLONS, "a,\"b\";c\td\r\n"},
    {{"it's", "a;b", "'"}, 3, SEMICOLONS, "'it''s';'a;b';''''\r\n"},
    {{""}, 1, SEMICOLONS, "''\r\n"},
    {{"\xff", "\1", ",\"\xfe", "\2"}, 4, BYTES, "\1\xff\1\xff\1\1\1\1\xff,\"\xfe\xff\2\r\n"},
};

static void test_written_records(void)
{
    for (size_t i = 0; i < sizeof written_records / sizeof *written_records; i++) {
        const char *row = written_records[i].text;
        size_t count = written_records[i].count, length = strlen(row), bytes = 0;
        const struct pergidau_csv_dialect *dialect = &csv_dialects[written_records[i].dialect];
        struct pergidau_bytes slices[MOST_SLICES];
        for (size_t k = 0; k < count; k++) {
            slices[k] = slice_of(written_records[i].fields[k]);
            bytes += slices[k].bytes_length;
        }
        test_written(slices, count, dialect, row);
        /* The record has the same fields. */
        uint8_t text[64];
        struct pergidau_span places[MOST_SLICES];
        struct pergidau_csv_record_sizes out;
        same("csv_record", row,
             pergidau_csv_record((const uint8_t *)row, length, dialect, text, sizeof text, places,
                                 MOST_SLICES, &out), PERGIDAU_DONE);
        same("the fields", row, (long long)out.fields, (long long)count);
        same("the bytes", row, (long long)out.text, (long long)bytes);
        same("the rest", row, (long long)out.length, (long long)length);
        for (size_t k = 0; k < out.fields && k < count; k++) {
            shown(row, text, places[k], written_records[i].fields[k]);
        }
        free_slices(slices, count);
    }
}

static const struct {
    const char *parts[MOST_SLICES];
    size_t count;
    const char *text;
} commands[] = {
    {{"PING"}, 1, "*1\r\n$4\r\nPING\r\n"},
    {{"GET", "key"}, 2, "*2\r\n$3\r\nGET\r\n$3\r\nkey\r\n"},
    {{"SET", "a", "", "\r\n$1\r\n"}, 4, "*4\r\n$3\r\nSET\r\n$1\r\na\r\n$0\r\n\r\n$6\r\n\r\n$1\r\n\r\n"},
    {{"ECHO", "0123456789"}, 2, "*2\r\n$4\r\nECHO\r\n$10\r\n0123456789\r\n"},
};

/* Sizes of one to six digits, and as many parts. */
static void test_sizes_of_commands(void)
{
    static uint8_t bytes[123456], buffer[2000000];
    static struct pergidau_bytes parts[100001];
    char line[32];
    for (size_t size = 1; size <= 100000; size *= 10) {
        size_t out = 0, sizes[] = {size - 1, size, size + 1, sizeof bytes};
        for (size_t k = 0; k < sizeof sizes / sizeof *sizes; k++) {
            struct pergidau_bytes part = {bytes, sizes[k]};
            size_t length = (size_t)snprintf(line, sizeof line, "*1\r\n$%zu\r\n", sizes[k]);
            same("a size", line, pergidau_resp_command(&part, 1, buffer, sizeof buffer, &out),
                 PERGIDAU_DONE);
            same("the length", line, (long long)out, (long long)(length + sizes[k] + 2));
            same("the size", line, memcmp(buffer, line, length), 0);
        }
        for (size_t k = 0; k <= size; k++) {
            parts[k] = (struct pergidau_bytes){bytes, 0};
        }
        size_t length = (size_t)snprintf(line, sizeof line, "*%zu\r\n$0\r\n\r\n", size + 1);
        same("a number of parts", line,
             pergidau_resp_command(parts, size + 1, buffer, sizeof buffer, &out), PERGIDAU_DONE);
        same("the length", line, (long long)out, (long long)(length + 6 * size));
        same("the size", line, memcmp(buffer, line, length), 0);
    }
}

static void test_commands(void)
{
    for (size_t i = 0; i < sizeof commands / sizeof *commands; i++) {
        size_t count = commands[i].count;
        struct pergidau_bytes slices[MOST_SLICES];
        for (size_t k = 0; k < count; k++) {
            slices[k] = slice_of(commands[i].parts[k]);
        }
        test_written(slices, count, NULL, commands[i].text);
        struct pergidau_resp_value out;
        same("resp_reply", commands[i].text,
             pergidau_resp_reply((const uint8_t *)commands[i].text, strlen(commands[i].text), 2, 1, &out),
             PERGIDAU_DONE);
        same("the parts", commands[i].text, (long long)out.elements, (long long)count);
        same("the rest", commands[i].text, (long long)out.length, (long long)strlen(commands[i].text));
        free_slices(slices, count);
    }
    test_sizes_of_commands();
}

/* Invalid arguments: an error is returned, and nothing is written. */
static void test_wrong_writing(void)
{
    const uint8_t *bytes = (const uint8_t *)"a";
    const size_t far = (size_t)PTRDIFF_MAX + 1, many = (size_t)PTRDIFF_MAX / sizeof(struct pergidau_bytes) + 1;
    const struct pergidau_bytes one = {bytes, 1}, null = {NULL, 1}, empty = {NULL, 0}, big = {bytes, far};
    const struct pergidau_bytes two[] = {{bytes, 1}, {NULL, 0}};
    uint8_t buffer[32];
    size_t out = 99;
    memset(buffer, 0xab, sizeof buffer);
    for (int is_command = 0; is_command < 2; is_command++) {
        const char *row = is_command ? "command" : "record";
        const struct pergidau_csv_dialect *dialect = is_command ? NULL : csv_dialects;
        same("null slices", row, written(NULL, 1, dialect, buffer, 32, &out), PERGIDAU_NULL);
        same("a null slice", row, written(&null, 1, dialect, buffer, 32, &out), PERGIDAU_NULL);
        same("a null slice", row, written(&empty, 1, dialect, buffer, 32, &out), PERGIDAU_NULL);
        same("a null slice", row, written(two, 2, dialect, buffer, 32, &out), PERGIDAU_NULL);
        same("a null buffer", row, written(&one, 1, dialect, NULL, 1, &out), PERGIDAU_NULL);
        same("no length", row, written(&one, 1, dialect, buffer, 32, NULL), PERGIDAU_NULL);
        same("too many", row, written(&one, many, dialect, buffer, 32, &out), PERGIDAU_TOO_LONG);
        same("too long", row, written(&big, 1, dialect, buffer, 32, &out), PERGIDAU_TOO_LONG);
        same("too long", row, written(&one, 1, dialect, buffer, far, &out), PERGIDAU_TOO_LONG);
        same("the length", row, (long long)out, 99);
        same("nothing", row, written(NULL, 0, dialect, buffer, 32, &out), PERGIDAU_INVALID);
        same("the length", row, (long long)out, 0);
        out = 99;
    }
    same("a null dialect", "record", pergidau_csv_write(&one, 1, NULL, buffer, 32, &out), PERGIDAU_NULL);
    for (size_t i = 0; i < sizeof no_dialects / sizeof *no_dialects; i++) {
        out = 99;
        same("an impossible dialect", "record",
             pergidau_csv_write(&one, 1, &no_dialects[i], buffer, 32, &out), PERGIDAU_INVALID_DIALECT);
        same("the length", "record", (long long)out, 0);
        same("no fields either", "record",
             pergidau_csv_write(NULL, 0, &no_dialects[i], buffer, 32, &out), PERGIDAU_INVALID_DIALECT);
    }
    for (size_t at = 0; at < sizeof buffer; at++) {
        same("no byte", "a", buffer[at], 0xab);
    }
}

/* More bytes than a number counts: a large slice, many times. Only its first page is memory, and it is
 * not read if no buffer has room for it. */
static void test_huge_commands(void)
{
    static const uint8_t bytes[1];
    struct pergidau_bytes parts[8];
    size_t out = 0, size = (size_t)PTRDIFF_MAX;
    for (size_t k = 0; k < 8; k++) {
        parts[k] = (struct pergidau_bytes){bytes, size};
    }
    same("a huge command", "once", pergidau_resp_command(parts, 1, NULL, 0, &out),
         PERGIDAU_BUFFER_TOO_SMALL);
    same("the length", "once", out == size + strlen("*1\r\n$9223372036854775807\r\n\r\n"), 1);
    same("a huge command", "eight", pergidau_resp_command(parts, 8, NULL, 0, &out),
         PERGIDAU_BUFFER_TOO_SMALL);
    same("the largest length", "eight", out == SIZE_MAX, 1);
}

static void test_writing(void)
{
    test_written_records();
    test_commands();
    test_wrong_writing();
    test_huge_commands();
}

#endif
