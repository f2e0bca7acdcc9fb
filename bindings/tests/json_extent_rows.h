/* Tables of JSON values in input that arrives in chunks: included by rows.c. */

/* Bytes, and the length of the value at their start with the whitespace before it; more bytes may
 * follow. */
static const struct {
    const char *bytes;
    size_t length;
} ended_values[] = {
    {"null", 4},
    {" true,", 5},
    {"-12.5e+3 ", 8},
    {"0-", 1},
    {"7]", 1},
    {"\"a\\\"\\u00e9\xc3\xa9\" ", 13},
    {"\"\\ud834\\udd1e\"", 14},
    {"[]]", 2},
    {"\r\n{\"a\" : [1, {}], \"a\":\"}\"}\n", 26},
    {"[[],[[]]]", 9},
};

/* Bytes with which no value of depth 2 continues, by the code and the offset of the first. */
static const struct {
    const char *bytes;
    enum pergidau_code code;
    size_t offset;
} no_values[] = {
    {"x", PERGIDAU_INVALID, 0},
    {" ]", PERGIDAU_INVALID, 1},
    {"[1,]", PERGIDAU_INVALID, 3},
    {"{\"a\" 1}", PERGIDAU_INVALID, 5},
    {"\"\xff\"", PERGIDAU_INVALID, 1},
    {"\"\xed\xa0\x80\"", PERGIDAU_INVALID, 2},
    {"\"\\ud800\"", PERGIDAU_INVALID, 7},
    {"01", PERGIDAU_INVALID, 1},
    {"1.x", PERGIDAU_INVALID, 2},
    {"tru ", PERGIDAU_INVALID, 3},
    {"[[[", PERGIDAU_TOO_DEEP, 2},
    {"{\"a\":[{\"b\":1}]}", PERGIDAU_TOO_DEEP, 6},
};

/* Makes successive calls, each with `step` more bytes, and returns the last result. */
static enum pergidau_code value_in_pieces(const char *row, size_t length, size_t depth, size_t step,
                                          size_t *end)
{
    struct pergidau_json_value_state state = {0};
    uint8_t brackets[3];
    enum pergidau_code code = PERGIDAU_INCOMPLETE;
    for (size_t have = 0; code == PERGIDAU_INCOMPLETE && have <= length;
         have += length - have < step && have < length ? length - have : step) {
        uint8_t *bytes = copied(row, have);
        code = pergidau_json_extent(&state, bytes, have, 0, brackets, depth, end);
        free(bytes);
    }
    same("the state after a value", row,
         code == PERGIDAU_INCOMPLETE || (state.passed | state.depth | state.mode | state.part) == 0, 1);
    return code;
}

static void test_ended_values(void)
{
    size_t end = 1;
    for (size_t i = 0; i < sizeof ended_values / sizeof *ended_values; i++) {
        const char *row = ended_values[i].bytes;
        size_t length = strlen(row), whole = ended_values[i].length;
        for (size_t step = 1; step <= length; step++) {
            same("json_extent", row, value_in_pieces(row, length, 3, step, &end), PERGIDAU_DONE);
            same("its end", row, (long long)end, (long long)whole);
        }
        for (size_t cut = 0; cut < whole; cut++) {
            same("partial input", row, value_in_pieces(row, cut, 3, 1, &end), PERGIDAU_INCOMPLETE);
            same("no end", row, (long long)end, 0);
        }
        struct pergidau_json_value_state state = {0};
        uint8_t brackets[3];
        uint8_t *bytes = copied(row, whole);
        same("complete input", row,
             pergidau_json_extent(&state, bytes, whole, 1, brackets, 3, &end), PERGIDAU_DONE);
        same("its end", row, (long long)end, (long long)whole);
        free(bytes);
    }
}

static void test_json_extents(void)
{
    test_ended_values();
    size_t end = 1;
    uint8_t brackets[2];
    struct pergidau_json_value_state state = {0};
    for (size_t i = 0; i < sizeof no_values / sizeof *no_values; i++) {
        const char *row = no_values[i].bytes;
        size_t length = strlen(row), offset = no_values[i].offset;
        for (size_t step = 1; step <= length; step++) {
            same("invalid value", row, value_in_pieces(row, length, 2, step, &end),
                 no_values[i].code);
            same("the error offset", row, (long long)end, (long long)offset);
        }
        same("a prefix", row, value_in_pieces(row, offset, 2, 1, &end), PERGIDAU_INCOMPLETE);
    }
    const uint8_t *bytes = (const uint8_t *)" [1 2";
    same("whitespace", "extent", pergidau_json_extent(&state, bytes, 1, 1, brackets, 2, &end),
         PERGIDAU_END);
    same("no end", "extent", (long long)end, 0);
    same("the end in a value", "extent", pergidau_json_extent(&state, bytes, 3, 1, brackets, 2, &end),
         PERGIDAU_INVALID);
    same("its length", "extent", (long long)end, 3);
    same("no levels", "extent", pergidau_json_extent(&state, bytes, 3, 0, NULL, 0, &end),
         PERGIDAU_TOO_DEEP);
    same("nothing", "extent", pergidau_json_extent(&state, NULL, 0, 0, NULL, 0, &end),
         PERGIDAU_INCOMPLETE);
    same("null", "state", pergidau_json_extent(NULL, bytes, 3, 0, brackets, 2, &end), PERGIDAU_NULL);
    same("null", "bytes", pergidau_json_extent(&state, NULL, 3, 0, brackets, 2, &end),
         PERGIDAU_NULL);
    same("null", "brackets", pergidau_json_extent(&state, bytes, 3, 0, NULL, 2, &end),
         PERGIDAU_NULL);
    same("null", "out", pergidau_json_extent(&state, bytes, 3, 0, brackets, 2, NULL), PERGIDAU_NULL);
    same("too long", "extent",
         pergidau_json_extent(&state, bytes, (size_t)PTRDIFF_MAX + 1, 0, brackets, 2, &end),
         PERGIDAU_TOO_LONG);
    /* For an invalid state the result is unspecified, but only the input is read. */
    state = (struct pergidau_json_value_state){SIZE_MAX, SIZE_MAX, SIZE_MAX, SIZE_MAX};
    (void)pergidau_json_extent(&state, bytes, 5, 0, brackets, 2, &end);
    for (size_t mode = 0; mode < 10; mode++) {
        for (size_t part = 0; part < 21; part++) {
            state = (struct pergidau_json_value_state){1, SIZE_MAX, mode, part};
            (void)pergidau_json_extent(&state, bytes, 5, 0, brackets, 2, &end);
            same("any state", "extent", end <= 5, 1);
        }
    }
}
