/* Tables of JSON strings that are written: included by rows.c, after `writing_rows.h`. The expected
 * strings are those of Python's json.dumps(text, ensure_ascii=False). */

static const struct {
    const char *text;
    size_t length;
    const char *want;
} written_strings[] = {
    {"", 0, "\"\""},
    {"a", 1, "\"a\""},
    {"milk, \"fresh\"", 13, "\"milk, \\\"fresh\\\"\""},
    {"C:\\x/y", 6, "\"C:\\\\x/y\""},
    {"\303\251\342\202\254\360\237\230\200", 9, "\"\303\251\342\202\254\360\237\230\200\""},
    {"a\012b\015\012\011c", 7, "\"a\\nb\\r\\n\\tc\""},
    {"\000", 1, "\"\\u0000\""},
    {"\033[0m", 4, "\"\\u001b[0m\""},
    {"\177", 1, "\"\177\""},
    {"\\u0061", 6, "\"\\\\u0061\""},
};

/* the string of the bytes from 0 to 127 */
static const char written_ascii[] =
    "\"\\u0000\\u0001\\u0002\\u0003\\u0004\\u0005\\u0006\\u0007\\b\\t\\n\\u000"
    "b\\f\\r\\u000e\\u000f\\u0010\\u0011\\u0012\\u0013\\u0014\\u0015\\u0016\\"
    "u0017\\u0018\\u0019\\u001a\\u001b\\u001c\\u001d\\u001e\\u001f !\\\"#$%"
    "&'()*+,-./0123456789:;<=>?@ABCDEFGHIJKLMNOPQRSTUVWXYZ[\\\\]^_`"
    "abcdefghijklmnopqrstuvwxyz{|}~\177\"";

/* Writes a string into a buffer of each size: too small ones stay unchanged, as does what follows it. */
static void test_string_in(const uint8_t *text, size_t length, const char *want)
{
    size_t size = strlen(want), out;
    for (size_t room = 0; room <= size + SPARE; room++) {
        uint8_t *buffer = malloc(room ? room : 1);
        if (buffer == NULL) {
            exit(2);
        }
        memset(buffer, 0xab, room ? room : 1);
        size_t filled = room < size ? 0 : size;
        out = 99;
        same("json_write_string", want, pergidau_json_write_string(text, length, buffer, room, &out),
             room < size ? PERGIDAU_BUFFER_TOO_SMALL : PERGIDAU_DONE);
        same("the length", want, (long long)out, (long long)size);
        same("the string", want, memcmp(buffer, want, filled), 0);
        for (size_t at = filled; at < room; at++) {
            same("a byte after the string", want, buffer[at], 0xab);
        }
        free(buffer);
    }
}

static void test_written_strings(void)
{
    uint8_t ascii[128], buffer[4];
    size_t out;
    for (size_t i = 0; i < sizeof written_strings / sizeof *written_strings; i++) {
        size_t length = written_strings[i].length;
        uint8_t *text = copied(written_strings[i].text, length);
        test_string_in(text, length, written_strings[i].want);
        free(text);
    }
    for (size_t i = 0; i < sizeof ascii; i++) {
        ascii[i] = (uint8_t)i;
    }
    test_string_in(ascii, sizeof ascii, written_ascii);
    same("no text", "string", pergidau_json_write_string(NULL, 0, buffer, 4, &out), PERGIDAU_DONE);
    same("null", "text", pergidau_json_write_string(NULL, 1, buffer, 4, &out), PERGIDAU_NULL);
    same("null", "buffer", pergidau_json_write_string(ascii, 1, NULL, 4, &out), PERGIDAU_NULL);
    same("null", "out", pergidau_json_write_string(ascii, 1, buffer, 4, NULL), PERGIDAU_NULL);
    same("too long", "text",
         pergidau_json_write_string(ascii, (size_t)PTRDIFF_MAX + 1, buffer, 4, &out), PERGIDAU_TOO_LONG);
}
