/* Tables of errors of JSON texts, of decimals, and of members and JSON pointers: included by rows.c.
 * The positions are counted by hand, the decimals are those of Python's decimal, and the pointers are
 * from RFC 6901, section 5. */

static const struct {
    const char *text;
    size_t max_depth;
    enum pergidau_code code;
    size_t offset, line, column;
    enum pergidau_json_error error;
    uint8_t letter;
} diagnosed[] = {
    {"[1, {\"a\": null}]", 2, PERGIDAU_DONE, 0, 0, 0, PERGIDAU_JSON_ERROR_NONE, 0},
    {"", 1, PERGIDAU_INCOMPLETE, 0, 1, 1, PERGIDAU_JSON_ERROR_VALUE, 0},
    {"[1, 2,]", 1, PERGIDAU_INVALID, 6, 1, 7, PERGIDAU_JSON_ERROR_VALUE, 0},
    {"[}", 1, PERGIDAU_INVALID, 1, 1, 2, PERGIDAU_JSON_ERROR_VALUE_OR_BRACKET, 0},
    {"{\"a\":1,}", 1, PERGIDAU_INVALID, 7, 1, 8, PERGIDAU_JSON_ERROR_NAME, 0},
    {"{1:2}", 1, PERGIDAU_INVALID, 1, 1, 2, PERGIDAU_JSON_ERROR_NAME_OR_BRACE, 0},
    {"{\"a\" 1}", 1, PERGIDAU_INVALID, 5, 1, 6, PERGIDAU_JSON_ERROR_COLON, 0},
    {"[1,\n [2 3]]", 2, PERGIDAU_INVALID, 8, 2, 5, PERGIDAU_JSON_ERROR_COMMA_OR_BRACKET, 0},
    {"[1", 1, PERGIDAU_INCOMPLETE, 2, 1, 3, PERGIDAU_JSON_ERROR_COMMA_OR_BRACKET, 0},
    {"{\"a\":1 \"b\"", 1, PERGIDAU_INVALID, 7, 1, 8, PERGIDAU_JSON_ERROR_COMMA_OR_BRACE, 0},
    {"1 2", 0, PERGIDAU_INVALID, 2, 1, 3, PERGIDAU_JSON_ERROR_END, 0},
    {"\"\xc3\xa9\t\"", 0, PERGIDAU_INVALID, 3, 1, 3, PERGIDAU_JSON_ERROR_CHARACTER, 0},
    {"\"\\x\"", 0, PERGIDAU_INVALID, 2, 1, 3, PERGIDAU_JSON_ERROR_ESCAPE, 0},
    {"\"\\u12g4\"", 0, PERGIDAU_INVALID, 5, 1, 6, PERGIDAU_JSON_ERROR_HEX_DIGIT, 0},
    {"\"\\udc00\"", 0, PERGIDAU_INVALID, 4, 1, 5, PERGIDAU_JSON_ERROR_FIRST_HALF, 0},
    {"\"\\ud800a\"", 0, PERGIDAU_INVALID, 7, 1, 8, PERGIDAU_JSON_ERROR_SECOND_HALF, 0},
    {"\"a\xff\"", 0, PERGIDAU_INVALID_UTF8, 2, 1, 3, PERGIDAU_JSON_ERROR_UTF8, 0},
    {"[\n 1,\xff", 1, PERGIDAU_INVALID_UTF8, 5, 2, 4, PERGIDAU_JSON_ERROR_UTF8, 0},
    {"[x\xff", 1, PERGIDAU_INVALID, 1, 1, 2, PERGIDAU_JSON_ERROR_VALUE_OR_BRACKET, 0},
    {"-x", 0, PERGIDAU_INVALID, 1, 1, 2, PERGIDAU_JSON_ERROR_DIGIT, 0},
    {"1ex", 0, PERGIDAU_INVALID, 2, 1, 3, PERGIDAU_JSON_ERROR_DIGIT_OR_SIGN, 0},
    {"nulx", 0, PERGIDAU_INVALID, 3, 1, 4, PERGIDAU_JSON_ERROR_LETTER, 'l'},
    {"[\n[[]]]", 2, PERGIDAU_TOO_DEEP, 3, 2, 2, PERGIDAU_JSON_ERROR_DEPTH, 0},
    {"1", 513, PERGIDAU_MAX_DEPTH_TOO_LARGE, 0, 0, 0, PERGIDAU_JSON_ERROR_NONE, 0},
};

static void test_diagnoses(void)
{
    const uint8_t *one = (const uint8_t *)"1";
    struct pergidau_json_diagnostic out;
    for (size_t i = 0; i < sizeof diagnosed / sizeof *diagnosed; i++) {
        const char *row = diagnosed[i].text;
        size_t length = strlen(row);
        uint8_t *text = copied(row, length);
        same("json_diagnose", row, pergidau_json_diagnose(text, length, diagnosed[i].max_depth, &out),
             diagnosed[i].code);
        same("the offset", row, (long long)out.offset, (long long)diagnosed[i].offset);
        same("the line", row, (long long)out.line, (long long)diagnosed[i].line);
        same("the column", row, (long long)out.column, (long long)diagnosed[i].column);
        same("the error", row, out.error, diagnosed[i].error);
        same("the letter", row, out.letter, diagnosed[i].letter);
        free(text);
    }
    same("the message", "a colon",
         strcmp(pergidau_json_error_message(PERGIDAU_JSON_ERROR_COLON), "expected a colon"), 0);
    same("null", "diagnose", pergidau_json_diagnose(NULL, 1, 1, &out), PERGIDAU_NULL);
    same("null", "diagnose", pergidau_json_diagnose(one, 1, 1, NULL), PERGIDAU_NULL);
    same("too long", "diagnose", pergidau_json_diagnose(one, (size_t)PTRDIFF_MAX + 1, 1, &out),
         PERGIDAU_TOO_LONG);
    same("nothing", "diagnose", pergidau_json_diagnose(NULL, 0, 1, &out), PERGIDAU_INCOMPLETE);
}

static const struct {
    const char *number;
    enum pergidau_code code;
    bool negative;
    uint64_t digits;
    int32_t exponent;
} decimals[] = {
    {"0", PERGIDAU_DONE, false, 0, 0},
    {"-0.00e7", PERGIDAU_DONE, false, 0, 0},
    {"1500", PERGIDAU_DONE, false, 15, 2},
    {"1.50e3 ", PERGIDAU_DONE, false, 15, 2},
    {"-0.005", PERGIDAU_DONE, true, 5, -3},
    {"15E+2,", PERGIDAU_DONE, false, 15, 2},
    {"18446744073709551615", PERGIDAU_DONE, false, UINT64_MAX, 0},
    {"18446744073709551617", PERGIDAU_OUT_OF_RANGE, false, 0, 0},
    {"1e2147483647", PERGIDAU_DONE, false, 1, INT32_MAX},
    {"1e2147483648", PERGIDAU_OUT_OF_RANGE, false, 0, 0},
    {"-1e-2147483648", PERGIDAU_DONE, true, 1, INT32_MIN},
    {"", PERGIDAU_INVALID, false, 0, 0},
    {"-", PERGIDAU_INVALID, false, 0, 0},
    {" 1", PERGIDAU_INVALID, false, 0, 0},
};

static void test_decimals(void)
{
    const uint8_t *one = (const uint8_t *)"1";
    struct pergidau_decimal out;
    for (size_t i = 0; i < sizeof decimals / sizeof *decimals; i++) {
        const char *row = decimals[i].number;
        size_t length = strlen(row);
        uint8_t *bytes = copied(row, length);
        same("json_decimal", row, pergidau_json_decimal(bytes, length, &out), decimals[i].code);
        same("the sign", row, out.negative, decimals[i].negative);
        same("the digits", row, out.digits == decimals[i].digits, 1);
        same("the exponent", row, out.exponent, decimals[i].exponent);
        free(bytes);
    }
    same("null", "decimal", pergidau_json_decimal(NULL, 1, &out), PERGIDAU_NULL);
    same("null", "decimal", pergidau_json_decimal(one, 1, NULL), PERGIDAU_NULL);
    same("too long", "decimal", pergidau_json_decimal(one, (size_t)PTRDIFF_MAX + 1, &out),
         PERGIDAU_TOO_LONG);
    same("nothing", "decimal", pergidau_json_decimal(NULL, 0, &out), PERGIDAU_INVALID);
}

static const struct {
    const char *object, *name;
    bool is_token;
    enum pergidau_code code;
    size_t out;
} members[] = {
    {"{\"\\u0061\":1}", "a", false, PERGIDAU_DONE, 9},
    {" , {\"b\":{\"a\":0},\"a\" :1,\"a\":2}", "a", false, PERGIDAU_DONE, 19},
    {"{\"a\":1}", "b", false, PERGIDAU_END, 0},
    {"{\"a\":1}", "", false, PERGIDAU_END, 0},
    {"{\"a\":1}", "aa", false, PERGIDAU_END, 0},
    {"{\"aa\":1}", "a", false, PERGIDAU_END, 0},
    {"{\"\":1}", "", false, PERGIDAU_DONE, 3},
    {"{}", "a", false, PERGIDAU_END, 0},
    {"{\"\\ud83d\\ude00\\n\":1}", "\xf0\x9f\x98\x80\n", false, PERGIDAU_DONE, 17},
    {"{\"a~b\":1,\"a~0b\":2}", "a~0b", false, PERGIDAU_DONE, 15},
    {"{\"a~b\":1,\"a~0b\":2}", "a~0b", true, PERGIDAU_DONE, 6},
    {"{\"a/b\":1}", "a~1b", true, PERGIDAU_DONE, 6},
    {"{\"~1\":1}", "~01", true, PERGIDAU_DONE, 5},
    {"[1]", "a", false, PERGIDAU_INVALID, 0},
    {"", "a", false, PERGIDAU_INVALID, 0},
    {"{1:2}", "a", false, PERGIDAU_INVALID, 0},
    {"{\"b\":", "a", false, PERGIDAU_INVALID, 0},
    {"{\"b\":[[]],\"a\":1}", "a", false, PERGIDAU_INVALID, 0},
    /* (bytes that are not JSON, as the header describes) */
    {"{\"a\":1", "b", false, PERGIDAU_END, 0},
    {"{\"a\":1]", "b", false, PERGIDAU_END, 0},
    {"{\"a\":1 \"b\":2}", "a", false, PERGIDAU_DONE, 4},
    {"{\"a\":1 \"b\":2}", "b", false, PERGIDAU_DONE, 10},
    {"{\"a\",1}", "a", false, PERGIDAU_DONE, 4},
    {"{\"a\",1}", "b", false, PERGIDAU_END, 0},
    {"{\"a\"", "a", false, PERGIDAU_DONE, 4},
    {"{\"a\"", "b", false, PERGIDAU_INVALID, 0},
    {"{\"a\":1,", "b", false, PERGIDAU_INVALID, 0},
    {"{\"a\":1,,\"b\":2}", "b", false, PERGIDAU_INVALID, 0},
};

static void test_members(void)
{
    const uint8_t *bytes = (const uint8_t *)"{}";
    size_t out, far = (size_t)PTRDIFF_MAX + 1;
    for (size_t i = 0; i < sizeof members / sizeof *members; i++) {
        const char *row = members[i].object;
        size_t length = strlen(row), name_length = strlen(members[i].name);
        uint8_t *object = copied(row, length), *name = copied(members[i].name, name_length);
        same("json_member", row,
             pergidau_json_member(object, length, 1, name, name_length, members[i].is_token, &out),
             members[i].code);
        same("the offset", row, (long long)out, (long long)members[i].out);
        free(object);
        free(name);
    }
    same("too deep", "member", pergidau_json_member(bytes, 2, 513, bytes, 1, 0, &out),
         PERGIDAU_MAX_DEPTH_TOO_LARGE);
    same("null", "member", pergidau_json_member(NULL, 1, 1, bytes, 1, 0, &out), PERGIDAU_NULL);
    same("null", "member", pergidau_json_member(bytes, 2, 1, NULL, 1, 0, &out), PERGIDAU_NULL);
    same("null", "member", pergidau_json_member(bytes, 2, 1, bytes, 1, 0, NULL), PERGIDAU_NULL);
    same("too long", "member", pergidau_json_member(bytes, far, 1, bytes, 1, 0, &out),
         PERGIDAU_TOO_LONG);
    same("too long", "member", pergidau_json_member(bytes, 2, 1, bytes, far, 0, &out),
         PERGIDAU_TOO_LONG);
    same("no name", "member", pergidau_json_member(bytes, 2, 1, NULL, 0, 0, &out), PERGIDAU_END);
}

static const char rfc_6901[] = "{\"foo\": [\"bar\", \"baz\"], \"\": 0, \"a/b\": 1, \"c%d\": 2, \"e^f\": 3, "
                               "\"g|h\": 4, \"i\\\\j\": 5, \"k\\\"l\": 6, \" \": 7, \"m~n\": 8}";

/* Pointers into that text, with the value: for `END`, the innermost one that the pointer reaches. */
static const struct {
    const char *pointer;
    enum pergidau_code code;
    enum pergidau_json_kind kind;
    const char *value;
} pointers[] = {
    {"", PERGIDAU_DONE, PERGIDAU_JSON_OBJECT, rfc_6901},
    {"/foo", PERGIDAU_DONE, PERGIDAU_JSON_ARRAY, "[\"bar\", \"baz\"]"},
    {"/foo/0", PERGIDAU_DONE, PERGIDAU_JSON_STRING, "\"bar\""},
    {"/foo/1", PERGIDAU_DONE, PERGIDAU_JSON_STRING, "\"baz\""},
    {"/", PERGIDAU_DONE, PERGIDAU_JSON_NUMBER, "0"},
    {"/a~1b", PERGIDAU_DONE, PERGIDAU_JSON_NUMBER, "1"},
    {"/c%d", PERGIDAU_DONE, PERGIDAU_JSON_NUMBER, "2"},
    {"/e^f", PERGIDAU_DONE, PERGIDAU_JSON_NUMBER, "3"},
    {"/g|h", PERGIDAU_DONE, PERGIDAU_JSON_NUMBER, "4"},
    {"/i\\j", PERGIDAU_DONE, PERGIDAU_JSON_NUMBER, "5"},
    {"/k\"l", PERGIDAU_DONE, PERGIDAU_JSON_NUMBER, "6"},
    {"/ ", PERGIDAU_DONE, PERGIDAU_JSON_NUMBER, "7"},
    {"/m~0n", PERGIDAU_DONE, PERGIDAU_JSON_NUMBER, "8"},
    /* (no such member, element, or contents) */
    {"/m~01n", PERGIDAU_END, PERGIDAU_JSON_OBJECT, rfc_6901},
    {"/fo", PERGIDAU_END, PERGIDAU_JSON_OBJECT, rfc_6901},
    {"/foo/2", PERGIDAU_END, PERGIDAU_JSON_ARRAY, "[\"bar\", \"baz\"]"},
    {"/foo/-", PERGIDAU_END, PERGIDAU_JSON_ARRAY, "[\"bar\", \"baz\"]"},
    {"/foo/00", PERGIDAU_END, PERGIDAU_JSON_ARRAY, "[\"bar\", \"baz\"]"},
    {"/foo/", PERGIDAU_END, PERGIDAU_JSON_ARRAY, "[\"bar\", \"baz\"]"},
    {"/foo/18446744073709551616", PERGIDAU_END, PERGIDAU_JSON_ARRAY, "[\"bar\", \"baz\"]"},
    {"/foo/0/bar", PERGIDAU_END, PERGIDAU_JSON_STRING, "\"bar\""},
    {"/m~0n/a/b", PERGIDAU_END, PERGIDAU_JSON_NUMBER, "8"},
    {"foo", PERGIDAU_INVALID_POINTER, PERGIDAU_JSON_NULL, ""},
    {"/m~n", PERGIDAU_INVALID_POINTER, PERGIDAU_JSON_NULL, ""},
    {"/m~2n", PERGIDAU_INVALID_POINTER, PERGIDAU_JSON_NULL, ""},
    {"/m~", PERGIDAU_INVALID_POINTER, PERGIDAU_JSON_NULL, ""},
};

/* Texts and pointers with the code, and the span of the value. */
static const struct {
    const char *text;
    size_t max_depth;
    const char *pointer;
    enum pergidau_code code;
    size_t offset, length;
} pointed[] = {
    {" [1, {\"\\u0061\": 23, \"a\": 4}] ", 2, "/1/a", PERGIDAU_DONE, 16, 2},
    {"{\"0\": 1}", 1, "/0", PERGIDAU_DONE, 6, 1},
    {"{\"\\u007e1\": 1}", 1, "/~01", PERGIDAU_DONE, 12, 1},
    {"[[[]]]", 3, "/0/0", PERGIDAU_DONE, 2, 2},
    {"[]", 1, "/0", PERGIDAU_END, 0, 2},
    {"{}", 1, "/", PERGIDAU_END, 0, 2},
    {" null", 0, "/a", PERGIDAU_END, 1, 4},
    /* (deeper than the limit, incomplete, or not JSON) */
    {"[[[]]]", 2, "", PERGIDAU_INVALID, 0, 0},
    {"", 1, "", PERGIDAU_INVALID, 0, 0},
    {"[1, 2", 1, "/0", PERGIDAU_INVALID, 0, 0},
    {"[1, 2,]", 1, "/0", PERGIDAU_INVALID, 0, 0},
    {"{\"a\": 1 \"b\": 2}", 1, "/a", PERGIDAU_INVALID, 0, 0},
    /* (what follows the value of the text is not read) */
    {"[1] x", 1, "/0", PERGIDAU_DONE, 1, 1},
};

static void test_pointer(const char *text, size_t max_depth, const char *pointer,
                         enum pergidau_code code, struct pergidau_json_item *item)
{
    size_t length = strlen(text), pointer_length = strlen(pointer);
    uint8_t *bytes = copied(text, length), *tokens = copied(pointer, pointer_length);
    same("json_pointer", pointer,
         pergidau_json_pointer(bytes, length, max_depth, tokens, pointer_length, item), code);
    free(bytes);
    free(tokens);
}

static void test_pointers(void)
{
    const uint8_t *bytes = (const uint8_t *)"[]";
    size_t far = (size_t)PTRDIFF_MAX + 1;
    struct pergidau_json_item item;
    for (size_t i = 0; i < sizeof pointers / sizeof *pointers; i++) {
        const char *row = pointers[i].pointer, *value = pointers[i].value;
        test_pointer(rfc_6901, 2, row, pointers[i].code, &item);
        same("its kind", row, item.kind, pointers[i].kind);
        same("its length", row, (long long)item.span.length, (long long)strlen(value));
        same("its text", row, memcmp(rfc_6901 + item.span.offset, value, strlen(value)), 0);
    }
    for (size_t i = 0; i < sizeof pointed / sizeof *pointed; i++) {
        const char *row = pointed[i].text;
        test_pointer(row, pointed[i].max_depth, pointed[i].pointer, pointed[i].code, &item);
        same("the offset", row, (long long)item.span.offset, (long long)pointed[i].offset);
        same("the length", row, (long long)item.span.length, (long long)pointed[i].length);
    }
    same("too deep", "pointer", pergidau_json_pointer(bytes, 2, 513, bytes, 2, &item),
         PERGIDAU_MAX_DEPTH_TOO_LARGE);
    same("null", "pointer", pergidau_json_pointer(NULL, 1, 1, bytes, 0, &item), PERGIDAU_NULL);
    same("null", "pointer", pergidau_json_pointer(bytes, 2, 1, NULL, 1, &item), PERGIDAU_NULL);
    same("null", "pointer", pergidau_json_pointer(bytes, 2, 1, bytes, 0, NULL), PERGIDAU_NULL);
    same("too long", "pointer", pergidau_json_pointer(bytes, far, 1, bytes, 0, &item),
         PERGIDAU_TOO_LONG);
    same("too long", "pointer", pergidau_json_pointer(bytes, 2, 1, bytes, far, &item),
         PERGIDAU_TOO_LONG);
    same("no pointer", "pointer", pergidau_json_pointer(bytes, 2, 1, NULL, 0, &item), PERGIDAU_DONE);
}
