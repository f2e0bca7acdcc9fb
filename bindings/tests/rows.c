/* Tables of the readers' tests, and invalid arguments, from C. Exits with 1 if a row differs. */
#include <math.h>
#include <stdbool.h>
#include <stdio.h>
#include <stdlib.h>
#include <string.h>

#include "pergidau.h"

static int wrong;

static void same(const char *what, const char *row, long long got, long long want)
{
    if (got != want) {
        printf("%s of %s: got %lld, want %lld\n", what, row, got, want);
        wrong = 1;
    }
}

/* Copies exactly these bytes, so that a read past them is detected. */
static uint8_t *copied(const char *text, size_t length)
{
    uint8_t *bytes = malloc(length ? length : 1);
    if (bytes == NULL) {
        exit(2);
    }
    memcpy(bytes, text, length);
    return bytes;
}

#include "ini_rows.h"
#include "json_extent_rows.h"
#include "json_lookup_rows.h"
#include "json_nodes_rows.h"
#include "json_rows.h"
#include "toml_rows.h"
#include "toml_values_rows.h"

static const struct {
    const char *text;
    enum pergidau_code code;
    long long value;
    size_t place;
} formulas[] = {
    {" 2 + 3 * 4 ", PERGIDAU_DONE, 14, 0},
    {"2^3^2", PERGIDAU_DONE, 512, 0},
    {"-3!", PERGIDAU_DONE, -6, 0},
    {"-2^2", PERGIDAU_DONE, 4, 0},
    {"1/0", PERGIDAU_INVALID, 0, 3},
    {"1 2", PERGIDAU_INVALID, 0, 2},
    {"1+", PERGIDAU_INVALID, 0, 2},
    {"", PERGIDAU_INVALID, 0, 0},
    {"-9223372036854775808", PERGIDAU_INVALID, 0, 1},
    {"3!!", PERGIDAU_DONE, 720, 0},
    {"7%-3", PERGIDAU_DONE, 1, 0},
    {"-7%3", PERGIDAU_DONE, -1, 0},
    {"21!", PERGIDAU_INVALID, 0, 3},
    {"1+1=2", PERGIDAU_DONE, 1, 0},
    {"20!", PERGIDAU_DONE, 2432902008176640000, 0},
    {"2^63", PERGIDAU_INVALID, 0, 4},
    {"9223372036854775807+1", PERGIDAU_INVALID, 0, 21},
    {"(1)", PERGIDAU_INVALID, 0, 0},
    {"\xff", PERGIDAU_INVALID_UTF8, 0, 0},
    /* The remainder would be 0, and the quotient does not fit. */
    {"-2^63", PERGIDAU_DONE, INT64_MIN, 0},
    {"-2^63%-1", PERGIDAU_INVALID, 0, 8},
    {"-2^63/-1", PERGIDAU_INVALID, 0, 8},
    {"7%0", PERGIDAU_INVALID, 0, 3},
};

static void test_formulas(void)
{
    for (size_t i = 0; i < sizeof formulas / sizeof *formulas; i++) {
        size_t length = strlen(formulas[i].text);
        uint8_t *text = copied(formulas[i].text, length);
        struct pergidau_number out;
        same("calc_value", formulas[i].text, pergidau_calc_value(text, length, &out),
             formulas[i].code);
        same("the value", formulas[i].text, out.value, formulas[i].value);
        same("the error offset", formulas[i].text, (long long)out.error_offset,
             (long long)formulas[i].place);
        free(text);
    }
}

static const struct {
    const char *line;
    enum pergidau_code code;
    size_t key, value, place;
} lines[] = {
    {"key=value\n", PERGIDAU_DONE, 3, 5, 0},
    {"key=value", PERGIDAU_DONE, 3, 5, 0},
    {"a=", PERGIDAU_DONE, 1, 0, 0},
    {"a==b", PERGIDAU_DONE, 1, 2, 0},
    {"a=b\nc", PERGIDAU_INVALID, 0, 0, 4},
    {"a=b\n\n", PERGIDAU_INVALID, 0, 0, 4},
    {"=b", PERGIDAU_INVALID, 0, 0, 0},
    {"key", PERGIDAU_INVALID, 0, 0, 3},
    {"", PERGIDAU_INVALID, 0, 0, 0},
};

static void test_pairs(void)
{
    for (size_t i = 0; i < sizeof lines / sizeof *lines; i++) {
        size_t length = strlen(lines[i].line);
        uint8_t *line = copied(lines[i].line, length);
        struct pergidau_pair out;
        bool done = lines[i].code == PERGIDAU_DONE;
        same("pair_line", lines[i].line, pergidau_pair_line(line, length, &out), lines[i].code);
        same("the key", lines[i].line, (long long)out.key.length, (long long)lines[i].key);
        same("the key's offset", lines[i].line, (long long)out.key.offset, 0);
        same("the value", lines[i].line, (long long)out.value.length, (long long)lines[i].value);
        same("the value's offset", lines[i].line, (long long)out.value.offset,
             done ? (long long)lines[i].key + 1 : 0);
        same("the error offset", lines[i].line, (long long)out.error_offset, (long long)lines[i].place);
        free(line);
    }
}

static const struct {
    size_t max_depth;
    const char *text;
    enum pergidau_code check, value;
    size_t length;
} texts[] = {
    {0, "null", PERGIDAU_DONE, PERGIDAU_DONE, 4},
    {0, "nullx", PERGIDAU_INVALID, PERGIDAU_DONE, 4},
    {0, "01", PERGIDAU_INVALID, PERGIDAU_DONE, 1},
    {0, "-1.5e3 ", PERGIDAU_DONE, PERGIDAU_DONE, 6},
    {0, " 1", PERGIDAU_DONE, PERGIDAU_INVALID, 0},
    {0, "\"a\\\"]\" ]", PERGIDAU_INVALID, PERGIDAU_DONE, 6},
    {1, "[ \t\r\n]]", PERGIDAU_INVALID, PERGIDAU_DONE, 6},
    {1, "[1,2,3]", PERGIDAU_DONE, PERGIDAU_DONE, 7},
    {1, "[[]]", PERGIDAU_INVALID, PERGIDAU_INVALID, 0},
    {2, "[[]]", PERGIDAU_DONE, PERGIDAU_DONE, 4},
    {1, "{ \"a\" : 1 , \"a\" : 2 }", PERGIDAU_DONE, PERGIDAU_DONE, 21},
    {2, "{\"a\":[true,false]},2", PERGIDAU_INVALID, PERGIDAU_DONE, 18},
    {9, "[1,]", PERGIDAU_INVALID, PERGIDAU_INVALID, 0},
    {9, "", PERGIDAU_INVALID, PERGIDAU_INVALID, 0},
    {9, "\"\xff\"", PERGIDAU_INVALID_UTF8, PERGIDAU_DONE, 3},
    {0, "\"\\ud83d\\ude00\"", PERGIDAU_DONE, PERGIDAU_DONE, 14},
    {0, "\"\\ud800\"", PERGIDAU_INVALID, PERGIDAU_INVALID, 0},
    {1, "[\"\\ude00\\ud83d\"]", PERGIDAU_INVALID, PERGIDAU_INVALID, 0},
    {PERGIDAU_MAX_DEPTH + 1, "1", PERGIDAU_MAX_DEPTH_TOO_LARGE, PERGIDAU_MAX_DEPTH_TOO_LARGE, 0},
};

static void test_json(void)
{
    for (size_t i = 0; i < sizeof texts / sizeof *texts; i++) {
        size_t length = strlen(texts[i].text), out = 7;
        uint8_t *text = copied(texts[i].text, length);
        same("json_check", texts[i].text, pergidau_json_check(text, length, texts[i].max_depth),
             texts[i].check);
        same("json_value", texts[i].text,
             pergidau_json_value(text, length, texts[i].max_depth, &out), texts[i].value);
        same("the length", texts[i].text, (long long)out, (long long)texts[i].length);
        free(text);
    }
    /* The maximum depth, and one more. */
    size_t most = PERGIDAU_MAX_DEPTH;
    uint8_t *deep = malloc(2 * most + 2);
    if (deep == NULL) {
        exit(2);
    }
    memset(deep, '[', most + 1);
    memset(deep + most + 1, ']', most + 1);
    same("json_check", "deep brackets", pergidau_json_check(deep + 1, 2 * most, most),
         PERGIDAU_DONE);
    same("json_check", "deeper brackets", pergidau_json_check(deep, 2 * most + 2, most),
         PERGIDAU_INVALID);
    free(deep);
}

static void shown(const char *row, const uint8_t *bytes, struct pergidau_span place,
                  const char *want)
{
    bool is = place.length == strlen(want) && !memcmp(bytes + place.offset, want, place.length);
    same(want, row, is, true);
}

/* The values of a text in order, each with the letter of its kind, and followed by a comma. */
static const struct {
    size_t max_depth;
    const char *text, *walk;
} walks[] = {
    {0, "null", "n null,"},
    {0, " -1.5e3 ", "d -1.5e3,"},
    {1, "[]", "a []("},
    {2, "[ 1 ,2,[true,[]]]", NULL},
    {3, " [ 1 ,2,[true , []]] ", "a [ 1 ,2,[true , []]](d 1,d 2,a [true , []](t true,a []("},
    {1, "{ \"a\" : 1 , \"a\" :false }", "o { \"a\" : 1 , \"a\" :false }(s \"a\",d 1,s \"a\",f false,"},
    {2, "{\"\":{}}", "o {\"\":{}}(s \"\",o {}("},
    {9, "[1,]", NULL},
};

/* Walks through the values of the input as callers do, and formats them. */
static char *walk(const uint8_t *bytes, size_t length, size_t max_depth, char *into)
{
    static const char letters[] = "nftdsao";
    struct pergidau_json_item item;
    while (pergidau_json_next(bytes, length, max_depth, &item) == PERGIDAU_DONE) {
        const uint8_t *value = bytes + item.span.offset;
        *into++ = letters[item.kind];
        *into++ = ' ';
        memcpy(into, value, item.span.length);
        into += item.span.length;
        if (item.kind == PERGIDAU_JSON_ARRAY || item.kind == PERGIDAU_JSON_OBJECT) {
            *into++ = '(';
            into = walk(value + 1, item.span.length - 1, max_depth - 1, into);
        } else {
            *into++ = ',';
        }
        length -= item.span.offset + item.span.length;
        bytes = value + item.span.length;
    }
    same("the end", (const char *)bytes, pergidau_json_next(bytes, length, max_depth, &item),
         PERGIDAU_END);
    *into = 0;
    return into;
}

static const struct {
    size_t max_depth;
    const char *bytes;
    enum pergidau_code code;
    size_t kind, offset, length;
} nexts[] = {
    {0, " , \"a\" : 1", PERGIDAU_DONE, PERGIDAU_JSON_STRING, 3, 3},
    {0, ":1]", PERGIDAU_DONE, PERGIDAU_JSON_NUMBER, 1, 1},
    {0, "01", PERGIDAU_DONE, PERGIDAU_JSON_NUMBER, 0, 1},
    {0, "nullx", PERGIDAU_DONE, PERGIDAU_JSON_NULL, 0, 4},
    {0, ", false", PERGIDAU_DONE, PERGIDAU_JSON_FALSE, 2, 5},
    {0, "true]", PERGIDAU_DONE, PERGIDAU_JSON_TRUE, 0, 4},
    {1, ":{}", PERGIDAU_DONE, PERGIDAU_JSON_OBJECT, 1, 2},
    {0, " \t\r\n]", PERGIDAU_END, 0, 0, 0},
    {0, "}", PERGIDAU_END, 0, 0, 0},
    {0, "", PERGIDAU_END, 0, 0, 0},
    {0, ",", PERGIDAU_INVALID, 0, 0, 0},
    {0, ", ]", PERGIDAU_INVALID, 0, 0, 0},
    {0, ",,1", PERGIDAU_INVALID, 0, 0, 0},
    {0, "[]", PERGIDAU_INVALID, 0, 0, 0},
    {1, ", []]", PERGIDAU_DONE, PERGIDAU_JSON_ARRAY, 2, 2},
    {PERGIDAU_MAX_DEPTH + 1, "1", PERGIDAU_MAX_DEPTH_TOO_LARGE, 0, 0, 0},
};

static void test_walks(void)
{
    struct pergidau_json_item item;
    for (size_t i = 0; i < sizeof walks / sizeof *walks; i++) {
        const char *row = walks[i].text;
        size_t length = strlen(row);
        uint8_t *text = copied(row, length);
        char passed[256] = "";
        bool is = pergidau_json_check(text, length, walks[i].max_depth) == PERGIDAU_DONE;
        same("is walked", row, is, walks[i].walk != NULL);
        if (is && walks[i].walk != NULL) {
            walk(text, length, walks[i].max_depth, passed);
            same(passed, row, strcmp(passed, walks[i].walk), 0);
        }
        free(text);
    }
    for (size_t i = 0; i < sizeof nexts / sizeof *nexts; i++) {
        size_t length = strlen(nexts[i].bytes);
        uint8_t *bytes = copied(nexts[i].bytes, length);
        same("json_next", nexts[i].bytes,
             pergidau_json_next(bytes, length, nexts[i].max_depth, &item), nexts[i].code);
        same("the kind", nexts[i].bytes, (long long)item.kind, (long long)nexts[i].kind);
        same("the error offset", nexts[i].bytes, (long long)item.span.offset,
             (long long)nexts[i].offset);
        same("the length", nexts[i].bytes, (long long)item.span.length,
             (long long)nexts[i].length);
        free(bytes);
    }
    same("null", "item", pergidau_json_next(NULL, 1, 1, &item), PERGIDAU_NULL);
    same("null", "item", pergidau_json_next((const uint8_t *)"1", 1, 1, NULL), PERGIDAU_NULL);
    same("too long", "item",
         pergidau_json_next((const uint8_t *)"1", (size_t)PTRDIFF_MAX + 1, 1, &item),
         PERGIDAU_TOO_LONG);
    same("nothing", "item", pergidau_json_next(NULL, 0, 1, &item), PERGIDAU_END);
}

enum { MOST_ENTRIES = 8 };

/* The key and the value of each entry; the head of a section has no key. */
static const struct {
    const char *bytes;
    enum pergidau_code code;
    const char *entries[MOST_ENTRIES][2];
    size_t count, place;
} documents[] = {
    {"", PERGIDAU_DONE, {{0}}, 0, 0},
    {" ; nothing\n", PERGIDAU_DONE, {{0}}, 0, 0},
    {"[a]", PERGIDAU_DONE, {{"", "a"}}, 1, 0},
    {"[]\nx=", PERGIDAU_DONE, {{"", ""}, {"x", ""}}, 2, 0},
    {"; c\r\n[a]\nx = 1 ; one\ny=2\n[b c]\nx=2\nx =\t3 \r\n",
     PERGIDAU_DONE,
     {{"", "a"}, {"x", "1"}, {"y", "2"}, {"", "b c"}, {"x", "2"}, {"x", "3"}},
     6,
     0},
    {"x=1", PERGIDAU_INVALID, {{0}}, 0, 0},
    {"[a]\nx\n", PERGIDAU_INVALID, {{0}}, 0, 4},
    {"[a]\nx=1\n [b", PERGIDAU_INVALID, {{0}}, 0, 9},
    {"[a]\nx=\xff", PERGIDAU_INVALID, {{0}}, 0, 4},
    /* The first 8 bytes are a document, but here the pair extends to the end of its line. */
    {"[a]\nx=ab\xff\n", PERGIDAU_INVALID, {{0}}, 0, 4},
};

static void test_document(size_t i)
{
    const char *row = documents[i].bytes;
    size_t length = strlen(row), count = documents[i].count, bytes = 0, sum = 0;
    uint8_t *input = copied(row, length);
    struct pergidau_pair_sizes out;
    for (size_t k = 0; k < count; k++) {
        bytes += strlen(documents[i].entries[k][0]) + strlen(documents[i].entries[k][1]);
    }
    uint8_t *text = malloc(bytes ? bytes : 1);
    struct pergidau_pair_entry *entries = malloc((count ? count : 1) * sizeof *entries);
    if (text == NULL || entries == NULL) {
        exit(2);
    }
    same("pair_document", row,
         pergidau_pair_document(input, length, text, bytes, entries, count, &out),
         documents[i].code);
    same("the entries", row, (long long)out.entries, (long long)count);
    same("the bytes", row, (long long)out.text, (long long)bytes);
    same("the error offset", row, (long long)out.error_offset, (long long)documents[i].place);
    for (size_t k = 0; k < count; k++) {
        shown(row, text, entries[k].key, documents[i].entries[k][0]);
        shown(row, text, entries[k].value, documents[i].entries[k][1]);
        same("the key's offset", row, (long long)entries[k].key.offset, (long long)sum);
        sum += entries[k].key.length;
        same("the value's offset", row, (long long)entries[k].value.offset, (long long)sum);
        sum += entries[k].value.length;
    }
    if (count > 0) {
        same("no entry", row,
             pergidau_pair_document(input, length, text, bytes, entries, count - 1, &out),
             PERGIDAU_BUFFER_TOO_SMALL);
        same("required entries", row, (long long)out.entries, (long long)count);
    }
    if (bytes > 0) {
        same("no byte", row,
             pergidau_pair_document(input, length, text, bytes - 1, entries, count, &out),
             PERGIDAU_BUFFER_TOO_SMALL);
        same("required bytes", row, (long long)out.text, (long long)bytes);
    }
    free(entries);
    free(text);
    free(input);
}

static void test_documents(void)
{
    const uint8_t *bytes = (const uint8_t *)"[a]";
    size_t far = (size_t)PTRDIFF_MAX + 1;
    uint8_t text[1];
    struct pergidau_pair_entry entries[1];
    struct pergidau_pair_sizes out;
    for (size_t i = 0; i < sizeof documents / sizeof *documents; i++) {
        test_document(i);
    }
    same("null", "document", pergidau_pair_document(NULL, 1, text, 1, entries, 1, &out),
         PERGIDAU_NULL);
    same("null", "document", pergidau_pair_document(bytes, 3, NULL, 1, entries, 1, &out),
         PERGIDAU_NULL);
    same("null", "document", pergidau_pair_document(bytes, 3, text, 1, NULL, 1, &out),
         PERGIDAU_NULL);
    same("null", "document", pergidau_pair_document(bytes, 3, text, 1, entries, 1, NULL),
         PERGIDAU_NULL);
    same("too long", "document", pergidau_pair_document(bytes, far, text, 1, entries, 1, &out),
         PERGIDAU_TOO_LONG);
    same("too long", "document",
         pergidau_pair_document(bytes, 3, text, 1, entries,
                               (size_t)PTRDIFF_MAX / sizeof *entries + 1, &out),
         PERGIDAU_TOO_LONG);
    same("no room", "document", pergidau_pair_document(bytes, 3, NULL, 0, NULL, 0, &out),
         PERGIDAU_BUFFER_TOO_SMALL);
    same("nothing", "document", pergidau_pair_document(NULL, 0, NULL, 0, NULL, 0, &out),
         PERGIDAU_DONE);
}

static const char hello[] = "GET /hello.txt HTTP/1.1\r\nUser-Agent: curl/7.64.1\r\n"
                            "Host: www.example.com\r\nAccept-Language: en, mi\r\n\r\n";

static const struct {
    const char *text, *method, *target, *fields[3][2];
    size_t count, rest;
    /* The version. */
    int major, minor;
} heads[] = {
    {hello,
     "GET",
     "/hello.txt",
     {{"User-Agent", "curl/7.64.1"}, {"Host", "www.example.com"}, {"Accept-Language", "en, mi"}},
     3,
     0,
     1,
     1},
    {"A b HTTP/1.1\r\n\r\n", "A", "b", {{0}}, 0, 0, 1, 1},
    {"A b HTTP/1.0\r\n\r\n", "A", "b", {{0}}, 0, 0, 1, 0},
    {"A b HTTP/2.9\r\n\r\n", "A", "b", {{0}}, 0, 0, 2, 9},
    {"A b HTTP/1.1\r\n\r\n\r\n", "A", "b", {{0}}, 0, 2, 1, 1},
    {"PUT /x HTTP/1.1\r\nX: 1\r\nX:\t2 \r\nY:\r\n\r\nX: 3\r\n\r\n",
     "PUT",
     "/x",
     {{"X", "1"}, {"X", "2"}, {"Y", ""}},
     3,
     8,
     1,
     1},
    {"PUT /x HTTP/1.1\r\nX: \t \r\nY:a\t \t\r\nZ: a b \r\n\r\n",
     "PUT",
     "/x",
     {{"X", ""}, {"Y", "a"}, {"Z", "a b"}},
     3,
     0,
     1,
     1},
};

/* Invalid heads: an incomplete head, bytes that cannot continue it, and why. */
struct no_head {
    const char *front, *rest;
    enum pergidau_http_head_error error;
};

#define HEAD_ERROR(NAME) PERGIDAU_HTTP_HEAD_ERROR_##NAME

static const struct no_head no_heads[] = {
    {"", "\r\nA b HTTP/1.1\r\n\r\n", HEAD_ERROR(METHOD)},
    {"A ", " b HTTP/1.1\r\n\r\n", HEAD_ERROR(TARGET)},
    {"A b HTTP/1.1", "\n\n", HEAD_ERROR(LINE_ENDING)},
    {"A b HTTP/1.1\r\n", "\n", HEAD_ERROR(FIELD_NAME)},
    {"A b HTTP/1.1\r\n\r", "\r\n", HEAD_ERROR(LINE_ENDING)},
    {"A b HTTP/1.1\r\nX: 1\r\n", "\n", HEAD_ERROR(FIELD_NAME)},
    {"A b HTTP/1.1\r\nX: 1", "\n\r\n", HEAD_ERROR(VALUE)},
    {"A b HTTP/1.1\r\n", " X: 1\r\n\r\n", HEAD_ERROR(FIELD_NAME)},
    {"A b HTTP/1.1\r\nX: 1\r\n", " 2\r\n\r\n", HEAD_ERROR(FIELD_NAME)},
    {"A b HTTP/1.1\r\nX", " : 1\r\n\r\n", HEAD_ERROR(COLON)},
    {"A b HTTP/1.1\r\nX", "\r\n\r\n", HEAD_ERROR(COLON)},
    {"A b HTTP/1.1\r\nX: 1\r\n", ": 2\r\n\r\n", HEAD_ERROR(FIELD_NAME)},
    {"A b HTTP", " 1.1\r\n\r\n", HEAD_ERROR(VERSION)},
    {"A b HTTP/1.", "x\r\n\r\n", HEAD_ERROR(VERSION)},
    {"A b HTTP/1", "-1\r\n\r\n", HEAD_ERROR(VERSION)},
    {"A b HTTP/1.1\r\nX: a", "\1b\r\n\r\n", HEAD_ERROR(VALUE)},
};

/* Writes an invalid head, and returns its length. */
static size_t joined(char *row, size_t size, const struct no_head *it)
{
    return (size_t)snprintf(row, size, "%s%s", it->front, it->rest);
}

static void test_heads(void)
{
    struct pergidau_http_request out;
    for (size_t i = 0; i < sizeof heads / sizeof *heads; i++) {
        const char *row = heads[i].text;
        size_t length = strlen(row), count = heads[i].count;
        uint8_t *text = copied(row, length);
        struct pergidau_field *fields = malloc((count ? count : 1) * sizeof *fields);
        if (fields == NULL) {
            exit(2);
        }
        for (int is_partial = 0; is_partial < 2; is_partial++) {
            same("http_head", row,
                 (is_partial ? pergidau_http_head_partial : pergidau_http_head)(
                     text, length, fields, count, &out),
                 PERGIDAU_DONE);
            shown(row, text, out.method, heads[i].method);
            shown(row, text, out.target, heads[i].target);
            same("the major version", row, out.major, heads[i].major);
            same("the minor version", row, out.minor, heads[i].minor);
            same("the length", row, (long long)out.length, (long long)(length - heads[i].rest));
            same("the fields", row, (long long)out.fields, (long long)count);
            same("no error", row, out.error, PERGIDAU_HTTP_HEAD_ERROR_NONE);
            for (size_t k = 0; k < count; k++) {
                shown(row, text, fields[k].name, heads[i].fields[k][0]);
                shown(row, text, fields[k].value, heads[i].fields[k][1]);
            }
        }
        /* Each buffer that is too small, and each proper prefix. */
        for (size_t room = 0; room < count; room++) {
            same("too small", row, pergidau_http_head(text, length, fields, room, &out),
                 PERGIDAU_BUFFER_TOO_SMALL);
            same("the required size", row, (long long)out.fields, (long long)count);
        }
        for (size_t end = 0; end + heads[i].rest < length; end++) {
            uint8_t *front = copied(row, end);
            same("a prefix", row, pergidau_http_head(front, end, fields, count, &out),
                 PERGIDAU_INVALID);
            same("its end", row, (long long)out.error_offset, (long long)end);
            same("its error", row, out.error, PERGIDAU_HTTP_HEAD_ERROR_INCOMPLETE);
            same("partial input", row, pergidau_http_head_partial(front, end, fields, count, &out),
                 PERGIDAU_INCOMPLETE);
            same("no error", row, out.error, PERGIDAU_HTTP_HEAD_ERROR_NONE);
            free(front);
        }
        free(fields);
        free(text);
    }
    for (size_t i = 0; i < sizeof no_heads / sizeof *no_heads; i++) {
        struct pergidau_field fields[4];
        char row[64];
        size_t place = strlen(no_heads[i].front), length = joined(row, sizeof row, &no_heads[i]);
        uint8_t *text = copied(row, length);
        same("invalid head", row, pergidau_http_head(text, length, fields, 4, &out), PERGIDAU_INVALID);
        same("the error offset", row, (long long)out.error_offset, (long long)place);
        same("the error", row, out.error, no_heads[i].error);
        same("invalid head", row, pergidau_http_head_partial(text, length, fields, 4, &out),
             PERGIDAU_INVALID);
        same("the error offset", row, (long long)out.error_offset, (long long)place);
        same("the error", row, out.error, no_heads[i].error);
        free(text);
    }
}

enum { MOST_CSV = 4 };

/* Dialects: a comma and double quotes, for each line ending, and three others. */
enum { CRLF, LF, EITHER, TABS, SEMICOLONS, BYTES };
static const struct pergidau_csv_dialect csv_dialects[] = {
    {',', '"', PERGIDAU_CSV_CRLF},  {',', '"', PERGIDAU_CSV_LF},     {',', '"', PERGIDAU_CSV_EITHER},
    {'\t', '"', PERGIDAU_CSV_LF},   {';', '\'', PERGIDAU_CSV_EITHER}, {0xff, 1, PERGIDAU_CSV_CRLF},
};

/* Two of the four bytes are equal, or there is no such line ending. */
static const struct pergidau_csv_dialect no_dialects[] = {
    {'"', '"', PERGIDAU_CSV_LF}, {'\r', '"', PERGIDAU_CSV_LF}, {'\n', '"', PERGIDAU_CSV_CRLF},
    {',', '\r', PERGIDAU_CSV_LF}, {',', '\n', PERGIDAU_CSV_EITHER},
    {',', '"', (enum pergidau_csv_line_end)3}, {',', '"', (enum pergidau_csv_line_end)-1},
};

/* Records in these dialects. */
static const struct {
    const char *text;
    size_t dialect;
    const char *fields[MOST_CSV];
    size_t count, rest;
} records[] = {
    {"aaa,bbb,ccc\r\nzzz,yyy,xxx\r\n", 0, {"aaa", "bbb", "ccc"}, 3, 13},
    {"zzz,yyy,xxx", 0, {"zzz", "yyy", "xxx"}, 3, 0},
    {"\"aaa\",\"b\r\nbb\",\"ccc\"\r\nzzz", 0, {"aaa", "b\r\nbb", "ccc"}, 3, 3},
    {"\"aaa\",\"b\"\"bb\",\"ccc\"", 0, {"aaa", "b\"bb", "ccc"}, 3, 0},
    {"a,\n\n", 1, {"a", ""}, 2, 1},
    {"\n", 1, {""}, 1, 0},
    {"\"\"\"\"\n,", 1, {"\""}, 1, 1},
    {",,\"\",", 1, {"", "", "", ""}, 4, 0},
    {"a,b\nc", EITHER, {"a", "b"}, 2, 1},
    {"a,b\r\nc", EITHER, {"a", "b"}, 2, 1},
    {"a,b\t\"c\t\"\n", TABS, {"a,b", "c\t"}, 2, 0},
    {"\"a\";'b''\n;';\r\n\n", SEMICOLONS, {"\"a\"", "b'\n;", ""}, 3, 1},
    {",\xff\1\xff\1\1\1\xff\"\r\n", BYTES, {",", "\xff\1", "\""}, 3, 0},
};

/* Texts that are not records, even with a line ending after them. Their first `begins` bytes can begin
 * a record; the next byte is the error, also for the partial function. */
static const struct {
    const char *text;
    size_t dialect;
    size_t begins;
} no_records[] = {
    {"a\"", 1, 1},   {"\"a\"b", 1, 3}, {"a\r\n", 1, 1}, {"\"a\" ", 1, 3}, {"a\rb", 1, 1},
    {"x\"y,z", 0, 1}, {"a\n\r\n", 0, 1}, {"a\rb", 0, 2},  {"b,\"\"\"", 1, 5},
    {"a\tb\"", TABS, 3}, {"a;'b'\"", SEMICOLONS, 5}, {"a\rb", EITHER, 2}, {"a\1", BYTES, 1},
};

static void test_record(size_t i)
{
    const char *row = records[i].text;
    const struct pergidau_csv_dialect *dialect = &csv_dialects[records[i].dialect];
    size_t length = strlen(row), count = records[i].count, bytes = 0, sum = 0;
    uint8_t *input = copied(row, length);
    struct pergidau_csv_record_sizes out;
    for (size_t k = 0; k < count; k++) {
        bytes += strlen(records[i].fields[k]);
    }
    uint8_t *text = copied(row, bytes);
    struct pergidau_span *places = malloc(count * sizeof *places);
    if (places == NULL) {
        exit(2);
    }
    same("csv_record", row,
         pergidau_csv_record(input, length, dialect, text, bytes, places, count, &out),
         PERGIDAU_DONE);
    same("the length", row, (long long)out.length, (long long)(length - records[i].rest));
    same("the fields", row, (long long)out.fields, (long long)count);
    same("the bytes", row, (long long)out.text, (long long)bytes);
    same("no error offset", row, (long long)out.error_offset, 0);
    for (size_t k = 0; k < count; k++) {
        shown(row, text, places[k], records[i].fields[k]);
        same("the error offset", row, (long long)places[k].offset, (long long)sum);
        sum += places[k].length;
    }
    same("no entry", row,
         pergidau_csv_record(input, length, dialect, text, bytes, places, count - 1, &out),
         PERGIDAU_BUFFER_TOO_SMALL);
    same("required entries", row, (long long)out.fields, (long long)count);
    if (bytes > 0) {
        same("no byte", row,
             pergidau_csv_record(input, length, dialect, text, bytes - 1, places, count, &out),
             PERGIDAU_BUFFER_TOO_SMALL);
        same("required bytes", row, (long long)out.text, (long long)bytes);
    }
    /* The partial function returns the record once its line ending is there. */
    size_t end = length - records[i].rest;
    bool ended = end > 0 && input[end - 1] == '\n';
    for (size_t room = 0; room <= end; room++) {
        uint8_t *piece = copied(row, room);
        same("partial input", row,
             pergidau_csv_record_partial(piece, room, dialect, text, bytes, places, count,
                                           &out),
             ended && room == end ? PERGIDAU_DONE : PERGIDAU_INCOMPLETE);
        free(piece);
    }
    free(places);
    free(text);
    free(input);
}

static void test_records(void)
{
    struct pergidau_csv_record_sizes out;
    for (size_t i = 0; i < sizeof records / sizeof *records; i++) {
        test_record(i);
    }
    for (size_t i = 0; i < sizeof no_records / sizeof *no_records; i++) {
        uint8_t text[8];
        struct pergidau_span places[MOST_CSV];
        const char *row = no_records[i].text;
        const struct pergidau_csv_dialect *dialect = &csv_dialects[no_records[i].dialect];
        size_t length = strlen(row);
        uint8_t *input = copied(row, length);
        same("invalid record", row,
             pergidau_csv_record(input, length, dialect, text, sizeof text, places, MOST_CSV,
                                 &out),
             PERGIDAU_INVALID);
        same("the error offset", row, (long long)out.error_offset, (long long)no_records[i].begins);
        free(input);
        for (size_t room = 0; room <= length; room++) {
            uint8_t *piece = copied(row, room);
            same("invalid partial record", row,
                 pergidau_csv_record_partial(piece, room, dialect, text, sizeof text, places,
                                               MOST_CSV, &out),
                 room > no_records[i].begins ? PERGIDAU_INVALID : PERGIDAU_INCOMPLETE);
            same("the error offset on partial input", row, (long long)out.error_offset,
                 room > no_records[i].begins ? (long long)no_records[i].begins : 0);
            free(piece);
        }
    }
}

static const struct {
    const char *bytes;
    size_t protocol, max_depth, kind;
    long long number;
    size_t elements;
    const char *text;
    size_t rest;
} replies[] = {
    {"+OK\r\n", 2, 0, PERGIDAU_RESP_SIMPLE, 0, 0, "OK", 0},
    {"-ERR unknown\r\n+", 2, 0, PERGIDAU_RESP_ERROR, 0, 0, "ERR unknown", 1},
    {":1000\r\n", 2, 0, PERGIDAU_RESP_INTEGER, 1000, 0, "", 0},
    {":-1\r\n", 2, 0, PERGIDAU_RESP_INTEGER, -1, 0, "", 0},
    {":01\r\n", 2, 0, PERGIDAU_RESP_INTEGER, 1, 0, "", 0},
    {":+5\r\n", 2, 0, PERGIDAU_RESP_INTEGER, 5, 0, "", 0},
    {":9223372036854775807\r\n", 2, 0, PERGIDAU_RESP_INTEGER, INT64_MAX, 0, "", 0},
    {"$01\r\na\r\n", 2, 0, PERGIDAU_RESP_BULK, 0, 0, "a", 0},
    {"$6\r\nfoobar\r\n$", 2, 0, PERGIDAU_RESP_BULK, 0, 0, "foobar", 1},
    {"$2\r\n\r\n\r\n", 2, 0, PERGIDAU_RESP_BULK, 0, 0, "\r\n", 0},
    {"$0\r\n\r\n", 2, 0, PERGIDAU_RESP_BULK, 0, 0, "", 0},
    {"$-1\r\n", 2, 0, PERGIDAU_RESP_NULL_BULK, 0, 0, "", 0},
    {"*-1\r\n", 2, 0, PERGIDAU_RESP_NULL_ARRAY, 0, 0, "", 0},
    {"*0\r\n*", 2, 1, PERGIDAU_RESP_ARRAY, 0, 0, "", 1},
    {"*2\r\n:1\r\n$1\r\na\r\n", 2, 1, PERGIDAU_RESP_ARRAY, 0, 2, ":1\r\n$1\r\na\r\n", 0},
    {"*1\r\n*1\r\n+a\r\n+b\r\n", 2, 2, PERGIDAU_RESP_ARRAY, 0, 1, "*1\r\n+a\r\n", 4},
    {"_\r\n", 3, 0, PERGIDAU_RESP_NULL, 0, 0, "", 0},
    {"#t\r\n", 3, 0, PERGIDAU_RESP_BOOLEAN, 1, 0, "", 0},
    {"#f\r\n#", 3, 0, PERGIDAU_RESP_BOOLEAN, 0, 0, "", 1},
    {",1.23\r\n", 3, 0, PERGIDAU_RESP_DOUBLE, 0, 0, "1.23", 0},
    {",-inf\r\n", 3, 0, PERGIDAU_RESP_DOUBLE, 0, 0, "-inf", 0},
    {",nan\r\n", 3, 0, PERGIDAU_RESP_DOUBLE, 0, 0, "nan", 0},
    {"(3492890328409238509324850943850943825024385\r\n", 3, 0, PERGIDAU_RESP_BIG_NUMBER, 0, 0,
     "3492890328409238509324850943850943825024385", 0},
    {"!21\r\nSYNTAX invalid syntax\r\n", 3, 0, PERGIDAU_RESP_BULK_ERROR, 0, 0,
     "SYNTAX invalid syntax", 0},
    {"=15\r\ntxt:Some string\r\n=", 3, 0, PERGIDAU_RESP_VERBATIM, 0, 0, "txt:Some string", 1},
    {"%2\r\n+first\r\n:1\r\n+second\r\n:2\r\n", 3, 1, PERGIDAU_RESP_MAP, 0, 4,
     "+first\r\n:1\r\n+second\r\n:2\r\n", 0},
    {"~2\r\n+a\r\n#t\r\n~", 3, 1, PERGIDAU_RESP_SET, 0, 2, "+a\r\n#t\r\n", 1},
    {">2\r\n+message\r\n$1\r\n\n\r\n", 3, 1, PERGIDAU_RESP_PUSH, 0, 2,
     "+message\r\n$1\r\n\n\r\n", 0},
    {"|1\r\n+ttl\r\n:3600\r\n*1\r\n:7\r\n", 3, 2, PERGIDAU_RESP_ATTRIBUTES, 0, 3,
     "+ttl\r\n:3600\r\n*1\r\n:7\r\n", 0},
};

/* Invalid replies at depth 1, whatever bytes follow them. The result of the function that reads them,
 * the offset of the error, and how many of their first bytes can begin a reply; for those that are
 * nested too deep, how many can at depth 1. */
static const struct {
    const char *bytes;
    size_t protocol;
    enum pergidau_code code;
    size_t offset, begins;
} no_replies[] = {
    {"x", 2, PERGIDAU_INVALID, 0, 0},
    {":1a\r\n", 2, PERGIDAU_INVALID, 0, 4},
    {"$+1\r\na\r\n", 2, PERGIDAU_INVALID, 0, 4},
    {"$-2\r\n", 2, PERGIDAU_INVALID, 0, 4},
    {"+a\rb", 2, PERGIDAU_INVALID, 0, 3},
    {"+a\n", 2, PERGIDAU_INVALID, 0, 2},
    {"$1\r\nab\r\n", 2, PERGIDAU_INVALID, 4, 5},
    {"*1\r\nx", 2, PERGIDAU_INVALID, 4, 4},
    {"*2\r\n+\r\n,", 2, PERGIDAU_INVALID, 7, 7},
    {"_\r\n", 2, PERGIDAU_INVALID, 0, 0},
    {"*1\r\n%0\r\n", 2, PERGIDAU_INVALID, 4, 4},
    {"_x\r\n", 3, PERGIDAU_INVALID, 0, 3},
    {"#true\r\n", 3, PERGIDAU_INVALID, 0, 6},
    {",.5\r\n", 3, PERGIDAU_INVALID, 0, 4},
    {"(1.0\r\n", 3, PERGIDAU_INVALID, 0, 5},
    {"!-1\r\n", 3, PERGIDAU_INVALID, 0, 4},
    {"=3\r\ntxt\r\n", 3, PERGIDAU_INVALID, 4, 8},
    {"~2\r\n=4\r\ntext\r\n", 3, PERGIDAU_INVALID, 8, 13},
    {"%?\r\n", 3, PERGIDAU_INVALID, 0, 3},
    {":9223372036854775808\r\n", 2, PERGIDAU_OUT_OF_RANGE, 0, 21},
    {":-9223372036854775809\r\n", 3, PERGIDAU_OUT_OF_RANGE, 0, 22},
    {"*2\r\n:1\r\n$9223372036854775808\r\n", 2, PERGIDAU_OUT_OF_RANGE, 8, 29},
    {"%4611686018427387904\r\n", 3, PERGIDAU_OUT_OF_RANGE, 0, 21},
    {"*1\r\n*1\r\n:1\r\n", 2, PERGIDAU_TOO_DEEP, 4, 7},
    {"*2\r\n:1\r\n*0\r\n:x\r\n", 2, PERGIDAU_TOO_DEEP, 8, 11},
    {"|1\r\n+a\r\n_\r\n~1\r\n:1\r\n", 3, PERGIDAU_TOO_DEEP, 11, 14},
};

static void nothing_read(const char *row, const struct pergidau_resp_value *out, size_t offset)
{
    same("no kind", row, (long long)out->kind, 0);
    same("no number", row, out->number, 0);
    same("no elements", row, (long long)out->elements, 0);
    same("no span", row, (long long)(out->span.offset + out->span.length), 0);
    same("no length", row, (long long)out->length, 0);
    same("the error offset", row, (long long)out->error_offset, (long long)offset);
}

static void test_invalid_replies(void)
{
    struct pergidau_resp_value out;
    for (size_t i = 0; i < sizeof no_replies / sizeof *no_replies; i++) {
        const char *row = no_replies[i].bytes;
        uint32_t protocol = (uint32_t)no_replies[i].protocol;
        size_t length = strlen(row), offset = no_replies[i].offset;
        for (size_t end = 0; end <= length; end++) {
            bool told = end > no_replies[i].begins;
            uint8_t *bytes = copied(row, end);
            same("invalid reply", row, pergidau_resp_reply(bytes, end, protocol, 1, &out),
                 told ? no_replies[i].code : PERGIDAU_INVALID);
            nothing_read(row, &out, told ? offset : end);
            same("invalid reply", row, pergidau_resp_reply_partial(bytes, end, protocol, 1, &out),
                 told ? no_replies[i].code : PERGIDAU_INCOMPLETE);
            nothing_read(row, &out, told ? offset : 0);
            free(bytes);
        }
    }
}

static void test_replies(void)
{
    struct pergidau_resp_value out;
    for (size_t i = 0; i < sizeof replies / sizeof *replies; i++) {
        const char *row = replies[i].bytes;
        uint32_t protocol = (uint32_t)replies[i].protocol;
        size_t length = strlen(row), max_depth = replies[i].max_depth;
        for (size_t end = 0; end <= length; end++) {
            bool whole = end >= length - replies[i].rest;
            uint8_t *bytes = copied(row, end);
            same("partial input", row,
                 pergidau_resp_reply_partial(bytes, end, protocol, max_depth, &out),
                 whole ? PERGIDAU_DONE : PERGIDAU_INCOMPLETE);
            if (!whole) {
                nothing_read(row, &out, 0);
            }
            same("resp_reply", row, pergidau_resp_reply(bytes, end, protocol, max_depth, &out),
                 whole ? PERGIDAU_DONE : PERGIDAU_INVALID);
            if (whole) {
                same("the kind", row, (long long)out.kind, (long long)replies[i].kind);
                same("the number", row, out.number, replies[i].number);
                same("the elements", row, (long long)out.elements, (long long)replies[i].elements);
                same("the length", row, (long long)out.length,
                     (long long)(length - replies[i].rest));
                same("no error", row, (long long)out.error_offset, 0);
                shown(row, bytes, out.span, replies[i].text);
            } else {
                nothing_read(row, &out, end);
            }
            free(bytes);
        }
        if (max_depth > 0) {
            same("a smaller depth limit", row,
                 pergidau_resp_reply((const uint8_t *)row, length, protocol, max_depth - 1, &out),
                 PERGIDAU_TOO_DEEP);
        }
        /* A reply of RESP2 is one of RESP3. Other numbers than 3 stand for RESP2. */
        same("the other version", row,
             pergidau_resp_reply((const uint8_t *)row, length, 3, max_depth, &out), PERGIDAU_DONE);
        same("another version", row,
             pergidau_resp_reply((const uint8_t *)row, length, 4, max_depth, &out),
             protocol == 2 ? PERGIDAU_DONE : PERGIDAU_INVALID);
    }
    /* Arrays that are nested up to the maximum depth. */
    size_t most = PERGIDAU_MAX_DEPTH;
    uint8_t *deep = malloc(4 * most + 3);
    if (deep == NULL) {
        exit(2);
    }
    for (size_t i = 0; i < most; i++) {
        memcpy(deep + 4 * i, "*1\r\n", 4);
    }
    memcpy(deep + 4 * most, "+\r\n", 3);
    same("resp_reply", "deep arrays", pergidau_resp_reply(deep, 4 * most + 3, 2, most, &out),
         PERGIDAU_DONE);
    same("resp_reply", "deeper arrays", pergidau_resp_reply(deep, 4 * most + 3, 2, most - 1, &out),
         PERGIDAU_TOO_DEEP);
    nothing_read("deeper arrays", &out, 4 * (most - 1));
    free(deep);
    const uint8_t *bytes = (const uint8_t *)"+\r\n";
    same("null", "reply", pergidau_resp_reply(NULL, 1, 2, 0, &out), PERGIDAU_NULL);
    same("null", "reply", pergidau_resp_reply(bytes, 3, 2, 0, NULL), PERGIDAU_NULL);
    same("too long", "reply", pergidau_resp_reply(bytes, (size_t)PTRDIFF_MAX + 1, 2, 0, &out),
         PERGIDAU_TOO_LONG);
    same("too deep", "reply", pergidau_resp_reply(bytes, 3, 2, PERGIDAU_MAX_DEPTH + 1, &out),
         PERGIDAU_MAX_DEPTH_TOO_LARGE);
    nothing_read("too deep", &out, 0);
    same("nothing", "reply", pergidau_resp_reply(NULL, 0, 2, 0, &out), PERGIDAU_INVALID);
    same("nothing", "reply", pergidau_resp_reply_partial(NULL, 0, 2, 0, &out), PERGIDAU_INCOMPLETE);
    test_invalid_replies();
}

/* Makes successive calls, each with `step` more bytes, and returns the last result. */
static enum pergidau_code extent_in_pieces(const char *row, size_t length, uint32_t protocol,
                                           size_t step, size_t *end)
{
    struct pergidau_resp_reply_state state = {0};
    enum pergidau_code code = PERGIDAU_INCOMPLETE;
    for (size_t have = 0; code == PERGIDAU_INCOMPLETE && have <= length;
         have += length - have < step && have < length ? length - have : step) {
        uint8_t *bytes = copied(row, have);
        code = pergidau_resp_extent(&state, bytes, have, protocol, end);
        free(bytes);
    }
    return code;
}

static void test_extents(void)
{
    size_t end = 1;
    for (size_t i = 0; i < sizeof replies / sizeof *replies; i++) {
        const char *row = replies[i].bytes;
        uint32_t protocol = (uint32_t)replies[i].protocol;
        size_t length = strlen(row), whole = length - replies[i].rest;
        for (size_t step = 1; step <= length; step++) {
            same("an extent", row, extent_in_pieces(row, length, protocol, step, &end),
                 PERGIDAU_DONE);
            same("its end", row, (long long)end, (long long)whole);
        }
        for (size_t cut = 0; cut < whole; cut++) {
            struct pergidau_resp_reply_state state = {0};
            uint8_t *bytes = copied(row, cut);
            same("partial input", row, pergidau_resp_extent(&state, bytes, cut, protocol, &end),
                 PERGIDAU_INCOMPLETE);
            same("no end", row, (long long)end, 0);
            same("partial input again", row,
                 pergidau_resp_extent(&state, bytes, cut, protocol, &end), PERGIDAU_INCOMPLETE);
            free(bytes);
        }
    }
    for (size_t i = 0; i < sizeof no_replies / sizeof *no_replies; i++) {
        const char *row = no_replies[i].bytes;
        uint32_t protocol = (uint32_t)no_replies[i].protocol;
        size_t length = strlen(row), begins = no_replies[i].begins;
        if (no_replies[i].code == PERGIDAU_TOO_DEEP) {
            continue;
        }
        for (size_t step = 1; step <= length; step++) {
            same("invalid reply", row, extent_in_pieces(row, length, protocol, step, &end),
                 no_replies[i].code);
            same("the error offset", row, (long long)end, (long long)no_replies[i].offset);
        }
        same("a prefix", row, extent_in_pieces(row, begins, protocol, 1, &end),
             PERGIDAU_INCOMPLETE);
        same("it is rejected", row, extent_in_pieces(row, begins + 1, protocol, 1, &end),
             no_replies[i].code);
    }
    /* More replies are expected than 64 bits can count: nested arrays of the maximum size. */
    const char *many = "*2\r\n*9223372036854775807\r\n*9223372036854775807\r\n"
                       "*9223372036854775807\r\n:1\r\n";
    for (size_t step = 1; step <= strlen(many); step++) {
        same("an extent", many, extent_in_pieces(many, strlen(many), 2, step, &end),
             PERGIDAU_INCOMPLETE);
    }
    struct pergidau_resp_reply_state state = {0};
    same("an extent", many, pergidau_resp_extent(&state, (const uint8_t *)many, strlen(many), 2, &end),
         PERGIDAU_INCOMPLETE);
    /* Three times 2^63 - 1 elements were announced, and five lines are consumed. */
    same("expected replies", many, (long long)state.high, 1);
    same("expected replies", many, (long long)(state.low >> 1), (1LL << 62) - 3);
    const uint8_t *bytes = (const uint8_t *)"+\r\n";
    same("null", "state", pergidau_resp_extent(NULL, bytes, 3, 2, &end), PERGIDAU_NULL);
    same("null", "extent", pergidau_resp_extent(&state, NULL, 1, 2, &end), PERGIDAU_NULL);
    same("null", "extent", pergidau_resp_extent(&state, bytes, 3, 2, NULL), PERGIDAU_NULL);
    same("too long", "extent",
         pergidau_resp_extent(&state, bytes, (size_t)PTRDIFF_MAX + 1, 2, &end), PERGIDAU_TOO_LONG);
    state = (struct pergidau_resp_reply_state){0};
    same("nothing", "extent", pergidau_resp_extent(&state, NULL, 0, 2, &end), PERGIDAU_INCOMPLETE);
    same("a state that continues", "extent", pergidau_resp_extent(&state, bytes, 3, 2, &end),
         PERGIDAU_DONE);
    /* For an invalid state the result is unspecified, but only the input is read. */
    state = (struct pergidau_resp_reply_state){SIZE_MAX, SIZE_MAX, SIZE_MAX,
                                          SIZE_MAX, SIZE_MAX, SIZE_MAX};
    (void)pergidau_resp_extent(&state, bytes, 3, 2, &end);
    state = (struct pergidau_resp_reply_state){1, 1, SIZE_MAX, 0, 0, 0};
    (void)pergidau_resp_extent(&state, bytes, 3, 2, &end);
    /* What is written is within the input. */
    state = (struct pergidau_resp_reply_state){1, 1, 0, 0, 0, 0};
    (void)pergidau_resp_extent(&state, NULL, 0, 2, &end);
    same("an extent within the input", "", (long long)end, 0);
}

/* The result of decoding a chunked body by successive calls: its content, its trailers, and the result
 * of the last call. */
struct decoded {
    char content[64], trailers[64];
    size_t data, fields, taken;
    enum pergidau_code code;
    enum pergidau_chunked_error error;
};

static struct decoded decode(struct pergidau_chunked_state state, const char *row, size_t length,
                             size_t piece)
{
    struct decoded made = {.code = PERGIDAU_DONE};
    size_t have = piece < length ? piece : length;
    while (made.code == PERGIDAU_DONE) {
        struct pergidau_chunked_step step;
        uint8_t *bytes = copied(row + made.taken, have - made.taken);
        made.code = pergidau_http_chunked(&state, bytes, have - made.taken, &step);
        if (made.code == PERGIDAU_DONE && step.kind == PERGIDAU_CHUNKED_DATA) {
            memcpy(made.content + made.data, bytes + step.span.offset, step.span.length);
            made.data += step.span.length;
        } else if (made.code == PERGIDAU_DONE) {
            same("its kind", row, (long long)step.kind, PERGIDAU_CHUNKED_TRAILERS);
            memcpy(made.trailers + made.fields, bytes + step.span.offset, step.span.length);
            made.fields += step.span.length;
        } else {
            same("nothing is given", row, (long long)(step.span.length + step.kind), 0);
        }
        made.taken += step.taken;
        made.error = step.error;
        free(bytes);
        if (made.code == PERGIDAU_INCOMPLETE && have < length) {
            have += length - have < piece ? length - have : piece;
            made.code = PERGIDAU_DONE;
        }
    }
    return made;
}

static const struct {
    const char *bytes, *content, *trailers;
    size_t rest;
} bodies[] = {
    {"0\r\n\r\n", "", "", 0},
    {"4\r\nWiki\r\n7\r\npedia i\r\nB\r\nn \r\nchunks.\r\n0\r\n\r\n",
     "Wikipedia in \r\nchunks.", "", 0},
    {"00a\r\n0123456789\r\n0\r\n\r\nHTTP/1.1", "0123456789", "", 8},
    {"1;a;b=c ; d\t= \"\\\"e\"\r\nx\r\n0\r\n\r\n", "x", "", 0},
    {"0\r\nA:\r\nLong-Name:\t v w \r\n\r\n\r\n", "", "A:\r\nLong-Name:\t v w \r\n", 2},
};

/* Invalid bodies. Their first `begins` bytes can begin a body; `error` is why the next byte is
 * invalid. */
static const struct {
    const char *bytes;
    size_t begins;
    enum pergidau_chunked_error error;
} no_bodies[] = {
    {"\r\n", 0, PERGIDAU_CHUNKED_ERROR_SIZE},
    {"1\n", 1, PERGIDAU_CHUNKED_ERROR_SIZE_LINE},
    {"1;a b\r\n", 4, PERGIDAU_CHUNKED_ERROR_SIZE_LINE},
    {"10000000000000000\r\n", 16, PERGIDAU_CHUNKED_ERROR_SIZE_TOO_LARGE},
    {"1\r\nab\r\n", 4, PERGIDAU_CHUNKED_ERROR_DATA_END},
    {"0\r\nA b\r\n\r\n", 4, PERGIDAU_CHUNKED_ERROR_TRAILERS},
    {"0\r\n\rx", 4, PERGIDAU_CHUNKED_ERROR_TRAILERS},
};

static void test_limits(void)
{
    struct pergidau_chunked_state state = {1, 0, 0, 3, 2, 3, 2};
    const char *line = "0;ab\r\n", *fields = "0\r\nA:\r\n";
    struct decoded made = decode(state, line, strlen(line), 1);
    same("its limit", line, made.code, PERGIDAU_INVALID);
    same("the limit", line, (long long)made.error, PERGIDAU_CHUNKED_ERROR_SIZE_LINE_TOO_LONG);
    same("the error offset", line, (long long)made.taken, 3);
    made = decode(state, fields, strlen(fields), 4);
    same("its limit", fields, made.code, PERGIDAU_INVALID);
    same("the limit", fields, (long long)made.error, PERGIDAU_CHUNKED_ERROR_TRAILERS_TOO_LONG);
    same("the error offset", fields, (long long)made.taken, 5);
}

static void test_bodies(void)
{
    const struct pergidau_chunked_state zeros = {0};
    for (size_t i = 0; i < sizeof bodies / sizeof *bodies; i++) {
        const char *row = bodies[i].bytes;
        size_t length = strlen(row), whole = length - bodies[i].rest;
        for (size_t piece = 1; piece <= length; piece++) {
            struct decoded made = decode(zeros, row, length, piece);
            same("a body", row, made.code, PERGIDAU_END);
            same("its end", row, (long long)made.taken, (long long)whole);
            same("its content", row, strcmp(made.content, bodies[i].content), 0);
            same("its trailers", row, strcmp(made.trailers, bodies[i].trailers), 0);
        }
        for (size_t cut = 0; cut < whole; cut++) {
            struct decoded made = decode(zeros, row, cut, 3);
            same("partial input", row, made.code, PERGIDAU_INCOMPLETE);
            same("it is taken", row, (long long)made.taken, (long long)cut);
        }
    }
    for (size_t i = 0; i < sizeof no_bodies / sizeof *no_bodies; i++) {
        const char *row = no_bodies[i].bytes;
        for (size_t piece = 1; piece <= strlen(row); piece++) {
            struct decoded made = decode(zeros, row, strlen(row), piece);
            same("invalid body", row, made.code, PERGIDAU_INVALID);
            same("the error offset", row, (long long)made.taken, (long long)no_bodies[i].begins);
            same("why", row, (long long)made.error, no_bodies[i].error);
        }
    }
    test_limits();
    struct pergidau_chunked_state state = {0};
    struct pergidau_chunked_step step;
    const uint8_t *bytes = (const uint8_t *)"0\r\n\r\n";
    same("null", "state", pergidau_http_chunked(NULL, bytes, 5, &step), PERGIDAU_NULL);
    same("null", "body", pergidau_http_chunked(&state, NULL, 1, &step), PERGIDAU_NULL);
    same("null", "body", pergidau_http_chunked(&state, bytes, 5, NULL), PERGIDAU_NULL);
    same("too long", "body", pergidau_http_chunked(&state, bytes, (size_t)PTRDIFF_MAX + 1, &step),
         PERGIDAU_TOO_LONG);
    same("nothing", "body", pergidau_http_chunked(&state, NULL, 0, &step), PERGIDAU_INCOMPLETE);
    same("a state that continues", "body", pergidau_http_chunked(&state, bytes, 5, &step),
         PERGIDAU_END);
    same("it ends again", "body", pergidau_http_chunked(&state, bytes, 5, &step), PERGIDAU_END);
    same("nothing is taken", "body", (long long)step.taken, 0);
    /* For an invalid state the result is unspecified, but only the input is read. */
    for (size_t place = 0; place < 12; place++) {
        for (size_t within = 0; within < 12; within++) {
            state = (struct pergidau_chunked_state){place, within, UINT64_MAX, 1, 1, 0, 0};
            (void)pergidau_http_chunked(&state, bytes, 5, &step);
            same("within", "body", step.taken <= 5, 1);
        }
    }
}

static void test_positions(void)
{
    const char *text = "gr\xc3\xb6\xc3\x9f" "e=1\nh\xc3\xb6he?2\n";
    struct pergidau_position out;
    same("text_position", "a line", pergidau_text_position((const uint8_t *)text, strlen(text), 15,
                                                           &out), PERGIDAU_DONE);
    same("the line", "a line", (long long)out.line, 2);
    same("the column", "a line", (long long)out.column, 5);
    same("null", "position", pergidau_text_position(NULL, 1, 0, &out), PERGIDAU_NULL);
    same("null", "position", pergidau_text_position((const uint8_t *)"1", 1, 0, NULL),
         PERGIDAU_NULL);
    same("too long", "position",
         pergidau_text_position((const uint8_t *)"1", (size_t)PTRDIFF_MAX + 1, 0, &out),
         PERGIDAU_TOO_LONG);
    same("nothing", "position", pergidau_text_position(NULL, 0, 1, &out), PERGIDAU_DONE);
    same("the line", "nothing", (long long)out.line, 1);
    /* Bytes that are not UTF-8, with the line and the column that Python counts in the bytes before
       the offset, decoded with a replacement character for each invalid sequence. */
    static const struct {
        const char *bytes;
        size_t length, offset;
        long long line, column;
    } invalid[] = {
        {"\xff", 1, 0, 1, 1},
        {"\xff", 1, 1, 1, 2},
        {"\xff", 1, 9, 1, 2},
        {"a\n\xff\n\nb", 6, 2, 2, 1},
        {"a\n\xff\n\nb", 6, 3, 2, 2},
        {"a\n\xff\n\nb", 6, 4, 3, 1},
        {"a\n\xff\n\nb", 6, 5, 4, 1},
        {"a\n\xff\n\nb", 6, 6, 4, 2},
        {"\xc3\xa9\xff", 3, 1, 1, 2},
        {"\xc3\xa9\xff", 3, 2, 1, 2},
        {"\xc3\xa9\xff", 3, 3, 1, 3},
        {"\xf0\x9d\x84\x9e", 4, 3, 1, 2},
        {"\xed\xa0\x80", 3, 3, 1, 4},
    };
    for (size_t i = 0; i < sizeof invalid / sizeof *invalid; i++) {
        same("text_position", "no UTF-8",
             pergidau_text_position((const uint8_t *)invalid[i].bytes, invalid[i].length,
                                    invalid[i].offset, &out), PERGIDAU_DONE);
        same("the line", "no UTF-8", (long long)out.line, invalid[i].line);
        same("the column", "no UTF-8", (long long)out.column, invalid[i].column);
    }
}

static void test_wrong_records(void)
{
    const uint8_t *bytes = (const uint8_t *)"a";
    size_t far = (size_t)PTRDIFF_MAX + 1;
    uint8_t text[1];
    struct pergidau_span places[1];
    struct pergidau_csv_record_sizes out;
    const struct pergidau_csv_dialect *standard = csv_dialects;
    same("null", "record", pergidau_csv_record(NULL, 1, standard, text, 1, places, 1, &out),
         PERGIDAU_NULL);
    same("null", "record", pergidau_csv_record(bytes, 1, standard, NULL, 1, places, 1, &out),
         PERGIDAU_NULL);
    same("null", "record", pergidau_csv_record(bytes, 1, standard, text, 1, NULL, 1, &out),
         PERGIDAU_NULL);
    same("null", "record", pergidau_csv_record(bytes, 1, standard, text, 1, places, 1, NULL),
         PERGIDAU_NULL);
    same("too long", "record", pergidau_csv_record(bytes, far, standard, text, 1, places, 1, &out),
         PERGIDAU_TOO_LONG);
    same("too long", "record", pergidau_csv_record(bytes, 1, standard, text, far, places, 1, &out),
         PERGIDAU_TOO_LONG);
    same("too long", "record",
         pergidau_csv_record(bytes, 1, standard, text, 1, places, (size_t)PTRDIFF_MAX / sizeof *places + 1,
                             &out),
         PERGIDAU_TOO_LONG);
    same("nothing", "record", pergidau_csv_record(NULL, 0, standard, NULL, 0, NULL, 0, &out),
         PERGIDAU_INVALID);
    same("no room", "record", pergidau_csv_record(bytes, 1, standard, NULL, 0, NULL, 0, &out),
         PERGIDAU_BUFFER_TOO_SMALL);
    same("nothing", "record", pergidau_csv_record_partial(NULL, 0, standard, NULL, 0, NULL, 0, &out),
         PERGIDAU_INCOMPLETE);
    same("null", "dialect", pergidau_csv_record(bytes, 1, NULL, text, 1, places, 1, &out),
         PERGIDAU_NULL);
    same("null", "dialect", pergidau_csv_record_partial(bytes, 1, NULL, text, 1, places, 1, &out),
         PERGIDAU_NULL);
    const struct pergidau_csv_dialect *none = no_dialects;
    for (size_t i = 0; i < sizeof no_dialects / sizeof *no_dialects; i++) {
        struct pergidau_csv_record_state state = {1, 2, 3, 4};
        memset(&out, 0xab, sizeof out);
        text[0] = 0xab;
        same("an impossible dialect", "a",
             pergidau_csv_record(bytes, 1, &none[i], text, 1, places, 1, &out),
             PERGIDAU_INVALID_DIALECT);
        same("no record", "a",
             (long long)(out.fields | out.text | out.length | out.error_offset), 0);
        same("an impossible dialect", "a",
             pergidau_csv_record_partial(bytes, 1, &none[i], text, 1, places, 1, &out),
             PERGIDAU_INVALID_DIALECT);
        same("no byte", "a", text[0], 0xab);
        memset(&out, 0xab, sizeof out);
        same("an impossible dialect", "a",
             pergidau_csv_record_extent(&state, bytes, 1, &none[i], &out),
             PERGIDAU_INVALID_DIALECT);
        same("no record", "a",
             (long long)(out.fields | out.text | out.length | out.error_offset), 0);
        same("the state", "a", state.passed == 1 && state.text == 2 && state.fields == 3
                                   && state.place == 4, 1);
    }
}

/* Invalid arguments: an error is returned, and nothing is read or written. */
static void test_wrong_use(void)
{
    const uint8_t *bytes = (const uint8_t *)"1";
    size_t far = (size_t)PTRDIFF_MAX + 1, length = 7;
    struct pergidau_number number = {5, 5};
    struct pergidau_pair pair;
    struct pergidau_http_request head;
    struct pergidau_field fields[1];
    same("null", "calc", pergidau_calc_value(NULL, 1, &number), PERGIDAU_NULL);
    same("null", "calc", pergidau_calc_value(bytes, 1, NULL), PERGIDAU_NULL);
    same("too long", "calc", pergidau_calc_value(bytes, far, &number), PERGIDAU_TOO_LONG);
    same("too long", "calc", pergidau_calc_value(bytes, SIZE_MAX, &number), PERGIDAU_TOO_LONG);
    same("kept", "calc", number.value, 5);
    same("nothing", "calc", pergidau_calc_value(NULL, 0, &number), PERGIDAU_INVALID);
    same("null", "pair", pergidau_pair_line(NULL, 1, &pair), PERGIDAU_NULL);
    same("null", "pair", pergidau_pair_line(bytes, 1, NULL), PERGIDAU_NULL);
    same("too long", "pair", pergidau_pair_line(bytes, far, &pair), PERGIDAU_TOO_LONG);
    same("null", "check", pergidau_json_check(NULL, 1, 1), PERGIDAU_NULL);
    same("too long", "check", pergidau_json_check(bytes, far, 1), PERGIDAU_TOO_LONG);
    same("nothing", "check", pergidau_json_check(NULL, 0, 1), PERGIDAU_INVALID);
    same("null", "value", pergidau_json_value(NULL, 1, 1, &length), PERGIDAU_NULL);
    same("null", "value", pergidau_json_value(bytes, 1, 1, NULL), PERGIDAU_NULL);
    same("too long", "value", pergidau_json_value(bytes, far, 1, &length), PERGIDAU_TOO_LONG);
    same("too deep", "value", pergidau_json_value(bytes, 1, SIZE_MAX, &length),
         PERGIDAU_MAX_DEPTH_TOO_LARGE);
    same("null", "head", pergidau_http_head(NULL, 1, fields, 1, &head), PERGIDAU_NULL);
    same("null", "head", pergidau_http_head(bytes, 1, NULL, 1, &head), PERGIDAU_NULL);
    same("null", "head", pergidau_http_head(bytes, 1, fields, 1, NULL), PERGIDAU_NULL);
    same("too long", "head",
         pergidau_http_head(bytes, 1, fields, (size_t)PTRDIFF_MAX / sizeof *fields + 1, &head),
         PERGIDAU_TOO_LONG);
    same("no room", "head",
         pergidau_http_head((const uint8_t *)hello, sizeof hello - 1, NULL, 0, &head),
         PERGIDAU_BUFFER_TOO_SMALL);
    same("the required size", "head", (long long)head.fields, 3);
    same("nothing", "head", pergidau_http_head_partial(NULL, 0, NULL, 0, &head),
         PERGIDAU_INCOMPLETE);
    test_wrong_records();
}

static void test_message(const char *message, const char *wanted)
{
    same("the message", wanted, strcmp(message, wanted), 0);
}

/* The messages of the first and the last error of each kind, and of a number after it. */
static void test_messages_of_errors(void)
{
    test_message(pergidau_ini_error_message(PERGIDAU_INI_ERROR_NONE), "no error");
    test_message(pergidau_ini_error_message(PERGIDAU_INI_ERROR_MISSING_DELIMITER),
                 "missing delimiter after the key");
    test_message(pergidau_ini_error_message((enum pergidau_ini_error)7), "unknown error");
    test_message(pergidau_toml_error_message(PERGIDAU_TOML_ERROR_NONE), "no error");
    test_message(pergidau_toml_error_message(PERGIDAU_TOML_ERROR_LINE_TOO_DEEP),
                 "table or array is nested deeper than the depth limit");
    test_message(pergidau_toml_error_message((enum pergidau_toml_error)46), "unknown error");
    test_message(pergidau_chunked_error_message(PERGIDAU_CHUNKED_ERROR_SIZE),
                 "expected a chunk size");
    test_message(pergidau_chunked_error_message(PERGIDAU_CHUNKED_ERROR_TRAILERS_TOO_LONG),
                 "trailer section too long");
    test_message(pergidau_chunked_error_message((enum pergidau_chunked_error)8), "unknown error");
    static const char *const parts[] = {
        "no error",
        "expected a method and a space",
        "expected a request target and a space",
        "expected an HTTP version",
        "expected a status code of three digits",
        "expected a field name or an empty line",
        "expected a colon after the field name",
        "invalid byte in a field value or reason phrase",
        "expected CRLF",
        "incomplete head",
        "unknown error",
    };
    for (int part = 0; part <= PERGIDAU_HTTP_HEAD_ERROR_INCOMPLETE + 1; part++) {
        test_message(pergidau_http_head_error_message((enum pergidau_http_head_error)part),
                     parts[part]);
    }
    test_message(pergidau_http_error_message(PERGIDAU_HTTP_ERROR_HEAD), "invalid head");
    test_message(pergidau_http_error_message(PERGIDAU_HTTP_ERROR_INVALID_CODING),
                 "invalid transfer coding");
    test_message(pergidau_http_error_message((enum pergidau_http_error)14), "unknown error");
}

/* The version of the library, whether it is proved, and the message of each code. */
static void test_library(void)
{
    char version[32];
    snprintf(version, sizeof version, "%d.%d.%d", PERGIDAU_VERSION_MAJOR, PERGIDAU_VERSION_MINOR,
             PERGIDAU_VERSION_PATCH);
    same("the version", PERGIDAU_VERSION, strcmp(version, PERGIDAU_VERSION), 0);
    same("the version", pergidau_version(), strcmp(version, pergidau_version()), 0);
    same("the number", "the ABI", pergidau_abi_version(), PERGIDAU_ABI_VERSION);
#ifdef IS_PROVED
    same("is proved", "the library", pergidau_is_proved(), IS_PROVED);
#endif
    static const char *const messages[] = {
        "success",
        "invalid input",
        "incomplete input: more bytes are needed",
        "memory allocation failed",
        "input is not valid UTF-8",
        "buffer too small",
        "depth limit too large: at most 512 levels are supported",
        "null pointer",
        "length too large: at most PTRDIFF_MAX bytes are supported",
        "no more items",
        "number is not an integer or out of range",
        "nested too deep: deeper than the depth limit",
        "number out of range",
        "unknown code",
    };
    for (int code = 0; code <= PERGIDAU_NOT_AN_INTEGER + 1; code++) {
        const char *message = pergidau_message((enum pergidau_code)code);
        same("the message", messages[code], strcmp(message, messages[code]), 0);
    }
    test_messages_of_errors();
    same("kinds", "JSON", PERGIDAU_JSON_NULL, 0);
    same("kinds", "JSON", PERGIDAU_JSON_OBJECT, 6);
    same("kinds", "RESP", PERGIDAU_RESP_ATTRIBUTES, 16);
    same("kinds", "a chunked body", PERGIDAU_CHUNKED_TRAILERS, 1);
    same("errors", "a chunked body", PERGIDAU_CHUNKED_ERROR_TRAILERS_TOO_LONG, 7);
    same("kinds", "INI", PERGIDAU_INI_MORE, 3);
    same("errors", "INI", PERGIDAU_INI_ERROR_MISSING_DELIMITER, 6);
    struct pergidau_json_item item;
    struct pergidau_resp_value reply;
    same("the size of a kind", "JSON", sizeof item.kind, sizeof(uint32_t));
    same("the size of a kind", "RESP", sizeof reply.kind, sizeof(uint32_t));
}

#include "bodies_rows.h"
#include "dns_rows.h"
#include "heads_rows.h"
#include "trailers_rows.h"
#include "resp_nodes_rows.h"
#include "writing_rows.h"
#include "json_write_rows.h"

int main(void)
{
    test_library();
    test_formulas();
    test_pairs();
    test_json();
    test_steps();
    test_nodes();
    test_node_lookups();
    test_written_strings();
    test_json_extents();
    test_strings();
    test_integers();
    test_diagnoses();
    test_decimals();
    test_members();
    test_pointers();
    test_walks();
    test_documents();
    test_lines_of_ini();
    test_places_of_ini();
    test_lookups_of_ini();
    test_heads();
    test_responses();
    test_head_extents();
    test_trailers();
    test_records();
    test_record_extents();
    test_replies();
    test_extents();
    test_resp_nodes();
    test_bodies();
    test_body_lengths();
    test_framings();
    test_fields();
    test_toml();
    test_date_times();
    test_searches();
    test_doubles();
    test_positions();
    test_writing();
    test_dns();
    test_wrong_use();
    return wrong;
}
