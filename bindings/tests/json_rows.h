/* Tables of JSON texts, step by step: included by rows.c. The expected texts are those of Python's
 * json. */

static const struct {
    const char *text, *steps;
} stepped[] = {
    {" null ", "n "},
    {"[]", "[ ] "},
    {"{\"a\": [1, {\"b\" : \"c\"}], \"d\":-2.5e3}",
     "{ N\"a\" [ #1 { N\"b\" \"c\" } ] N\"d\" #-2.5e3 } "},
    {"\t[ true , false,null\r\n, \"x:\" ]\n", "[ t f n \"x:\" ] "},
    {"[[[[]]],{}]", "[ [ [ [ ] ] ] { } ] "},
    {"\"\\\"\\u003a\"", "\"\\\"\\u003a\" "},
};

/* Formats the steps of a text. Names, strings and numbers include their bytes. */
static void walk_steps(const uint8_t *bytes, size_t length, char *into)
{
    static const char *const marks[] = {
        "n", "f", "t", "#", "", NULL, NULL, "N", "[", "]", "{", "}",
    };
    struct pergidau_json_item item;
    while (pergidau_json_step(bytes, length, &item) == PERGIDAU_DONE) {
        bool told = item.kind == PERGIDAU_JSON_NUMBER || item.kind == PERGIDAU_JSON_STRING
            || item.kind == PERGIDAU_JSON_NAME;
        into += sprintf(into, "%s%.*s ", marks[item.kind], told ? (int)item.span.length : 0,
                        (const char *)bytes + item.span.offset);
        bytes += item.span.offset + item.span.length;
        length -= item.span.offset + item.span.length;
    }
    same("the end of steps", (const char *)bytes, pergidau_json_step(bytes, length, &item),
         PERGIDAU_END);
    same("the item at the end", "a text", item.kind == 0 && item.span.length == 0, 1);
}

static void test_steps(void)
{
    struct pergidau_json_item item;
    for (size_t i = 0; i < sizeof stepped / sizeof *stepped; i++) {
        size_t length = strlen(stepped[i].text);
        uint8_t *text = copied(stepped[i].text, length);
        char found[200] = "";
        walk_steps(text, length, found);
        same("steps", stepped[i].text, strcmp(found, stepped[i].steps), 0);
        free(text);
    }
    same("invalid step", "x", pergidau_json_step((const uint8_t *)",x", 2, &item), PERGIDAU_INVALID);
    same("invalid step", ", ,", pergidau_json_step((const uint8_t *)", ,", 3, &item), PERGIDAU_INVALID);
    same("null", "step", pergidau_json_step(NULL, 1, &item), PERGIDAU_NULL);
    same("null", "step", pergidau_json_step((const uint8_t *)"1", 1, NULL), PERGIDAU_NULL);
    same("too long", "step",
         pergidau_json_step((const uint8_t *)"1", (size_t)PTRDIFF_MAX + 1, &item),
         PERGIDAU_TOO_LONG);
    same("nothing", "step", pergidau_json_step(NULL, 0, &item), PERGIDAU_END);
}

static const struct {
    const char *bytes, *text;
    size_t text_length, length;
} strings[] = {
    {"\"\"", "", 0, 2},
    {"\"role\": 1", "role", 4, 6},
    {"\"r\\u006fle\"", "role", 4, 11},
    {"\"\\\"\\\\\\/\\b\\f\\n\\r\\t\"]", "\"\\/\b\f\n\r\t", 8, 18},
    {"\"\\u0000\\u007f\\u0080\\u07fF\\u0800\\uFFfd\"",
     "\0\x7f\xc2\x80\xdf\xbf\xe0\xa0\x80\xef\xbf\xbd", 12, 38},
    {"\"\\uD83d\\uDe00\\ud800\\udc00\\udbff\\udfff\"",
     "\xf0\x9f\x98\x80\xf0\x90\x80\x80\xf4\x8f\xbf\xbf", 12, 38},
    {"\"a long text of more than sixteen bytes \\u00e9\\n and more behind it \xc3\xa9\"",
     "a long text of more than sixteen bytes \xc3\xa9\n and more behind it \xc3\xa9", 64, 71},
};

static const char *no_strings[] = {
    "", "a", " \"a\"", "\"a", "\"\\x\"", "\"\\u12\"", "\"\\ud800\"", "\"\\udc00\"", "\"\n\"",
    "\"\\ud800\\u0041\"", "\"\\",
};

static void test_string(size_t i)
{
    const char *row = strings[i].bytes;
    size_t length = strlen(row), most = strings[i].text_length;
    uint8_t *bytes = copied(row, length);
    for (size_t room = 0; room <= most + 1; room++) {
        uint8_t *buffer = copied("", 0);
        buffer = realloc(buffer, room ? room : 1);
        if (buffer == NULL) {
            exit(2);
        }
        memset(buffer, 0xab, room);
        struct pergidau_json_text out;
        bool fits = room >= most;
        same("json_string", row, pergidau_json_string(bytes, length, buffer, room, &out),
             fits ? PERGIDAU_DONE : PERGIDAU_BUFFER_TOO_SMALL);
        same("the text's length", row, (long long)out.text, (long long)most);
        same("the string's length", row, (long long)out.length, (long long)strings[i].length);
        same("the text", row, fits ? memcmp(buffer, strings[i].text, most) : 0, 0);
        same("the byte after it", row, room > most ? buffer[most] : 0xab, 0xab);
        free(buffer);
    }
    free(bytes);
}

static void test_strings(void)
{
    const uint8_t *one = (const uint8_t *)"\"a\"";
    struct pergidau_json_text out;
    uint8_t buffer[16];
    for (size_t i = 0; i < sizeof strings / sizeof *strings; i++) {
        test_string(i);
    }
    for (size_t i = 0; i < sizeof no_strings / sizeof *no_strings; i++) {
        size_t length = strlen(no_strings[i]);
        uint8_t *bytes = copied(no_strings[i], length);
        same("invalid string", no_strings[i],
             pergidau_json_string(bytes, length, buffer, sizeof buffer, &out), PERGIDAU_INVALID);
        same("its lengths", no_strings[i], (long long)(out.text + out.length), 0);
        free(bytes);
    }
    size_t far = (size_t)PTRDIFF_MAX + 1;
    same("null", "string", pergidau_json_string(NULL, 1, buffer, 1, &out), PERGIDAU_NULL);
    same("null", "string", pergidau_json_string(one, 3, NULL, 1, &out), PERGIDAU_NULL);
    same("null", "string", pergidau_json_string(one, 3, buffer, 1, NULL), PERGIDAU_NULL);
    same("too long", "string", pergidau_json_string(one, far, buffer, 1, &out), PERGIDAU_TOO_LONG);
    same("too long", "string", pergidau_json_string(one, 3, buffer, far, &out), PERGIDAU_TOO_LONG);
    same("no buffer", "string", pergidau_json_string(one, 3, NULL, 0, &out), PERGIDAU_BUFFER_TOO_SMALL);
    same("no bytes", "string", pergidau_json_string(NULL, 0, buffer, 1, &out), PERGIDAU_INVALID);
}

static const struct {
    const char *number;
    enum pergidau_code integer;
    int64_t is;
    enum pergidau_code natural;
    uint64_t of;
} integers[] = {
    {"0", PERGIDAU_DONE, 0, PERGIDAU_DONE, 0},
    {"-0", PERGIDAU_DONE, 0, PERGIDAU_NOT_AN_INTEGER, 0},
    {"-12, 3", PERGIDAU_DONE, -12, PERGIDAU_NOT_AN_INTEGER, 0},
    {"01", PERGIDAU_DONE, 0, PERGIDAU_DONE, 0},
    {"1.0", PERGIDAU_NOT_AN_INTEGER, 0, PERGIDAU_NOT_AN_INTEGER, 0},
    {"1e2", PERGIDAU_NOT_AN_INTEGER, 0, PERGIDAU_NOT_AN_INTEGER, 0},
    {"7x", PERGIDAU_DONE, 7, PERGIDAU_DONE, 7},
    {"9223372036854775807", PERGIDAU_DONE, INT64_MAX, PERGIDAU_DONE, INT64_MAX},
    {"-9223372036854775808", PERGIDAU_DONE, INT64_MIN, PERGIDAU_NOT_AN_INTEGER, 0},
    {"9223372036854775808", PERGIDAU_NOT_AN_INTEGER, 0, PERGIDAU_DONE, (uint64_t)INT64_MAX + 1},
    {"-9223372036854775809", PERGIDAU_NOT_AN_INTEGER, 0, PERGIDAU_NOT_AN_INTEGER, 0},
    {"18446744073709551615", PERGIDAU_NOT_AN_INTEGER, 0, PERGIDAU_DONE, UINT64_MAX},
    {"18446744073709551616", PERGIDAU_NOT_AN_INTEGER, 0, PERGIDAU_NOT_AN_INTEGER, 0},
    {"100000000000000000000000000000", PERGIDAU_NOT_AN_INTEGER, 0, PERGIDAU_NOT_AN_INTEGER, 0},
    {"", PERGIDAU_INVALID, 0, PERGIDAU_INVALID, 0},
    {"-", PERGIDAU_INVALID, 0, PERGIDAU_INVALID, 0},
    {"+1", PERGIDAU_INVALID, 0, PERGIDAU_INVALID, 0},
    {" 1", PERGIDAU_INVALID, 0, PERGIDAU_INVALID, 0},
    {"\"1\"", PERGIDAU_INVALID, 0, PERGIDAU_INVALID, 0},
};

static void test_integers(void)
{
    const uint8_t *one = (const uint8_t *)"1";
    int64_t integer;
    uint64_t natural;
    for (size_t i = 0; i < sizeof integers / sizeof *integers; i++) {
        const char *row = integers[i].number;
        size_t length = strlen(row);
        uint8_t *bytes = copied(row, length);
        same("json_integer", row, pergidau_json_integer(bytes, length, &integer),
             integers[i].integer);
        same("the integer", row, integer, integers[i].is);
        same("json_natural", row, pergidau_json_natural(bytes, length, &natural),
             integers[i].natural);
        same("the natural number", row, natural == integers[i].of, 1);
        free(bytes);
    }
    size_t far = (size_t)PTRDIFF_MAX + 1;
    same("null", "integer", pergidau_json_integer(NULL, 1, &integer), PERGIDAU_NULL);
    same("null", "integer", pergidau_json_integer(one, 1, NULL), PERGIDAU_NULL);
    same("too long", "integer", pergidau_json_integer(one, far, &integer), PERGIDAU_TOO_LONG);
    same("nothing", "integer", pergidau_json_integer(NULL, 0, &integer), PERGIDAU_INVALID);
    same("null", "natural", pergidau_json_natural(NULL, 1, &natural), PERGIDAU_NULL);
    same("null", "natural", pergidau_json_natural(one, 1, NULL), PERGIDAU_NULL);
    same("too long", "natural", pergidau_json_natural(one, far, &natural), PERGIDAU_TOO_LONG);
    same("nothing", "natural", pergidau_json_natural(NULL, 0, &natural), PERGIDAU_INVALID);
}
