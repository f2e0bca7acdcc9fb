/* Tables of INI files of any dialect, entry by entry: included by rows.c. In the dialect of Python
 * the expected results are those of its configparser. */

enum {
    PYTHON = PERGIDAU_INI_DIALECT_PYTHON,
    DESKTOP = PERGIDAU_INI_DIALECT_DESKTOP,
    LENIENT = PERGIDAU_INI_DIALECT_LENIENT,
};

/* Entries, each followed by a vertical bar; and the code, offset and error of the last call. */
static const struct {
    size_t dialect;
    const char *text, *entries;
    enum pergidau_code code;
    size_t place, error;
} lines_of_ini[] = {
    {PYTHON, "", "", PERGIDAU_END, 0, 0},
    {PYTHON, "\n# a\n ; b\n\t\r\n", "", PERGIDAU_END, 0, 0},
    {PYTHON, "[s]\na = b\n", "[s]|a=b|", PERGIDAU_END, 0, 0},
    {PYTHON, "[a b ]\nkey of two  :\tvalue = c\r\n", "[a b ]|key of two=value = c|",
     PERGIDAU_END, 0, 0},
    {PYTHON, "[s]\na=\n", "[s]|a=|", PERGIDAU_END, 0, 0},
    {PYTHON, "[s]\na=a", "[s]|a=a|", PERGIDAU_END, 0, 0},
    {PYTHON, "[s]\na = b\n  c\n\n # d\n\te = f\ng = h\n", "[s]|a=b|+c|+|+e = f|g=h|",
     PERGIDAU_END, 0, 0},
    {PYTHON, "[s]\n  a = b\n  c = d\n", "[s]|a=b|c=d|", PERGIDAU_END, 0, 0},
    {PYTHON, "[s]\na = b ; c\n", "[s]|a=b ; c|", PERGIDAU_END, 0, 0},
    {PYTHON, "\xef\xbb\xbf[\xc3\xa9]\n", "[\xc3\xa9]|", PERGIDAU_END, 0, 0},
    {PYTHON, "a = b\n", "", PERGIDAU_INVALID, 0, PERGIDAU_INI_ERROR_MISSING_SECTION},
    {PYTHON, "\xef\xbb\xbf# a\nb = c\n", "", PERGIDAU_INVALID, 7, PERGIDAU_INI_ERROR_MISSING_SECTION},
    {PYTHON, "[s]\n\nabc\n", "[s]|", PERGIDAU_INVALID, 5, PERGIDAU_INI_ERROR_MISSING_DELIMITER},
    {PYTHON, "[s]\n = b\n", "[s]|", PERGIDAU_INVALID, 4, PERGIDAU_INI_ERROR_MISSING_KEY},
    {PYTHON, "[s", "", PERGIDAU_INVALID, 0, PERGIDAU_INI_ERROR_MISSING_SECTION},
    {PYTHON, "[s]\n[]\n", "[s]|", PERGIDAU_INVALID, 4, PERGIDAU_INI_ERROR_MISSING_DELIMITER},
    {PYTHON, "[s]:\na=b\n[a]b]\n[q=1\n[]: c\n", "[s]|a=b|[a]b]|[q=1|[]=c|", PERGIDAU_END, 0, 0},
    {PYTHON, "[s]\na = \xff\nb = c\n", "[s]|", PERGIDAU_INVALID_UTF8, 4, 0},
    {PYTHON, "[s]\n# \xff\n", "[s]|", PERGIDAU_INVALID_UTF8, 4, 0},
    {PYTHON, "[s]\na\xff = \n", "[s]|", PERGIDAU_INVALID_UTF8, 4, 0},
    {DESKTOP, "[Desktop Entry]\nName[de]=a:b\n; = c\n", "[Desktop Entry]|Name[de]=a:b|;=c|",
     PERGIDAU_END, 0, 0},
    {DESKTOP, "[s]\na=b\n c=d\n", "[s]|a=b|c=d|", PERGIDAU_END, 0, 0},
    {DESKTOP, "[s]\na:b\n", "[s]|", PERGIDAU_INVALID, 4, PERGIDAU_INI_ERROR_MISSING_DELIMITER},
    {LENIENT, "a # b\nc = d;e ;f\n[s] ;g\n", "a|c=d;e|[s]|", PERGIDAU_END, 0, 0},
    {LENIENT, "a = b\n  c\n", "a=b|c|", PERGIDAU_END, 0, 0},
    /* Each flag by itself, and sums with other bits. */
    {PERGIDAU_INI_DIALECT_COLON, "[s]\na=b:c\n", "[s]|a=b=c|", PERGIDAU_END, 0, 0},
    {PERGIDAU_INI_DIALECT_EQUALS, "[s]\na:b=c\n", "[s]|a:b=c|", PERGIDAU_END, 0, 0},
    {0, "[s]\na:b=c\n#=d\n", "[s]|a=b=c|#=d|", PERGIDAU_END, 0, 0},
    {PERGIDAU_INI_DIALECT_NUMBER_SIGN, "[s]\n#a\n;=b#\n", "[s]|;=b#|", PERGIDAU_END, 0, 0},
    {PERGIDAU_INI_DIALECT_SEMICOLON, "[s]\n;a\n#=b;\n", "[s]|#=b;|", PERGIDAU_END, 0, 0},
    {PERGIDAU_INI_DIALECT_INLINE_NUMBER_SIGN, "[s]\na=b ;c #d\n", "[s]|a=b ;c|",
     PERGIDAU_END, 0, 0},
    {PERGIDAU_INI_DIALECT_INLINE_SEMICOLON, "[s]\na=b #c ;d\n", "[s]|a=b #c|", PERGIDAU_END, 0, 0},
    {PERGIDAU_INI_DIALECT_UNTIL_EMPTY, "[s]\na=b\n c\n\n d=e\n", "[s]|a=b|+c|d=e|",
     PERGIDAU_END, 0, 0},
    {PERGIDAU_INI_DIALECT_PAST_EMPTY | PERGIDAU_INI_DIALECT_UNTIL_EMPTY, "[s]\na=b\n c\n\n d\n",
     "[s]|a=b|+c|+|+d|", PERGIDAU_END, 0, 0},
    {PERGIDAU_INI_DIALECT_VALUELESS, "[s]\na\n", "[s]|a|", PERGIDAU_END, 0, 0},
    {PERGIDAU_INI_DIALECT_BEFORE_SECTIONS, "a=b\n", "a=b|", PERGIDAU_END, 0, 0},
    {PERGIDAU_INI_DIALECT_LOOSE_SECTIONS, "[s] x\n[]a]\n", "[s]|[]a]|", PERGIDAU_END, 0, 0},
    {0, "[s", "", PERGIDAU_INVALID, 0, PERGIDAU_INI_ERROR_UNCLOSED_SECTION},
    {0, "[s]\n[]\n", "[s]|", PERGIDAU_INVALID, 4, PERGIDAU_INI_ERROR_EMPTY_SECTION},
    {0, "[s] x\n", "", PERGIDAU_INVALID, 0, PERGIDAU_INI_ERROR_TRAILING_TEXT},
    {PYTHON | 2048, "[s]\na=b\n", "[s]|a=b|", PERGIDAU_END, 0, 0},
};

/* Appends an entry. */
static char *put_entry(char *into, const char *text, const struct pergidau_ini_entry *entry)
{
    int key = (int)entry->key.length, value = (int)entry->value.length;
    const char *name = text + entry->key.offset, *said = text + entry->value.offset;
    switch (entry->kind) {
    case PERGIDAU_INI_SECTION:
        return into + sprintf(into, "[%.*s]|", key, name);
    case PERGIDAU_INI_PAIR:
        return into + sprintf(into, "%.*s=%.*s|", key, name, value, said);
    case PERGIDAU_INI_KEY:
        return into + sprintf(into, "%.*s|", key, name);
    default:
        return into + sprintf(into, "+%.*s|", value, said);
    }
}

static void test_lines_of_ini(void)
{
    for (size_t i = 0; i < sizeof lines_of_ini / sizeof *lines_of_ini; i++) {
        const char *text = lines_of_ini[i].text;
        size_t length = strlen(text);
        uint8_t *bytes = copied(text, length);
        struct pergidau_ini_state state = {0};
        struct pergidau_ini_entry entry;
        enum pergidau_code code;
        char found[200] = "", *end = found;
        while ((code = pergidau_ini_next(&state, bytes, length, lines_of_ini[i].dialect, &entry))
               == PERGIDAU_DONE) {
            end = put_entry(end, (const char *)bytes, &entry);
            same("no error offset", text, (long long)(entry.error_offset + entry.error), 0);
        }
        same("the entries", text, strcmp(found, lines_of_ini[i].entries), 0);
        for (int again = 0; again < 2; again++) {
            same("the end", text, code, lines_of_ini[i].code);
            same("the error offset", text, (long long)entry.error_offset,
                 (long long)lines_of_ini[i].place);
            same("the error", text, (long long)entry.error, (long long)lines_of_ini[i].error);
            same("no text", text, (long long)(entry.key.length + entry.value.length), 0);
            code = pergidau_ini_next(&state, bytes, length, lines_of_ini[i].dialect, &entry);
        }
        free(bytes);
    }
}

/* Lookups by section and key: the value, or NULL for the codes that write none. */
static const struct {
    size_t dialect;
    const char *text, *section, *key, *value;
    enum pergidau_code code;
    size_t place, error;
} lookups_of_ini[] = {
    {LENIENT, "a=0\n[s]\na=1\n[t]\na=2\n", "", "a", "0", PERGIDAU_DONE, 0, 0},
    {LENIENT, "a=0\n[s]\na=1\n[t]\na=2\n", "s", "a", "1", PERGIDAU_DONE, 0, 0},
    {LENIENT, "a=0\n[s]\na=1\n[t]\na=2\n", "t", "a", "2", PERGIDAU_DONE, 0, 0},
    {LENIENT, "a=0\n[s]\na=1\n[t]\na=2\n", "u", "a", NULL, PERGIDAU_END, 0, 0},
    {LENIENT, "a=0\n[s]\na=1\n[t]\na=2\n", "s", "A", NULL, PERGIDAU_END, 0, 0},
    {LENIENT, "a=0\n[s]\na=1\n[t]\na=2\n", "s", "", NULL, PERGIDAU_END, 0, 0},
    {LENIENT, "", "", "a", NULL, PERGIDAU_END, 0, 0},
    {LENIENT, "a\n", "", "a", "", PERGIDAU_DONE, 0, 0},
    {PYTHON, "[s]\na=1\n[t]\n[s]\na=2\nb=3\n", "s", "a", "1", PERGIDAU_DONE, 0, 0},
    {PYTHON, "[s]\na=1\n[t]\n[s]\na=2\nb=3\n", "s", "b", "3", PERGIDAU_DONE, 0, 0},
    {PYTHON, "[s]\na=1\n b=2\n", "s", "b", NULL, PERGIDAU_END, 0, 0},
    {PYTHON, "\xef\xbb\xbf[s]\na b : c d \n", "s", "a b", "c d", PERGIDAU_DONE, 0, 0},
    {PYTHON, "[s]\na=1\nb\n", "s", "a", "1", PERGIDAU_DONE, 0, 0},
    {PYTHON, "[s]\na=1\nb\n", "s", "b", NULL, PERGIDAU_INVALID, 8,
     PERGIDAU_INI_ERROR_MISSING_DELIMITER},
    {PYTHON, "[s]\na=1\n\xff=2\n", "s", "\xff", NULL, PERGIDAU_INVALID_UTF8, 8, 0},
};

static void test_lookups_of_ini(void)
{
    for (size_t i = 0; i < sizeof lookups_of_ini / sizeof *lookups_of_ini; i++) {
        const char *text = lookups_of_ini[i].text, *value = lookups_of_ini[i].value;
        size_t length = strlen(text), named = strlen(lookups_of_ini[i].section);
        uint8_t *bytes = copied(text, length), *section = copied(lookups_of_ini[i].section, named);
        uint8_t *key = copied(lookups_of_ini[i].key, strlen(lookups_of_ini[i].key));
        struct pergidau_ini_state state = {9, 9, 9, 9};
        struct pergidau_ini_entry out;
        same("a lookup", text,
             pergidau_ini_get(&state, bytes, length, lookups_of_ini[i].dialect, section, named, key,
                              strlen(lookups_of_ini[i].key), &out),
             lookups_of_ini[i].code);
        same("the length of the value", text, (long long)out.value.length,
             value == NULL ? 0 : (long long)strlen(value));
        same("the value", text,
             value != NULL && memcmp(bytes + out.value.offset, value, strlen(value)), 0);
        same("the error offset", text, (long long)out.error_offset,
             (long long)lookups_of_ini[i].place);
        same("the error", text, (long long)out.error, (long long)lookups_of_ini[i].error);
        free(bytes);
        free(section);
        free(key);
    }
    /* The state after a lookup is that after the pair. */
    const uint8_t *bytes = (const uint8_t *)"[s]\na=1\n 2\nb=3\n";
    struct pergidau_ini_state state = {0};
    struct pergidau_ini_entry out;
    pergidau_ini_get(&state, bytes, 15, PYTHON, bytes + 1, 1, bytes + 4, 1, &out);
    same("the pair", "a=1", (long long)out.value.offset, 6);
    same("a further line", "a=1", pergidau_ini_next(&state, bytes, 15, PYTHON, &out), PERGIDAU_DONE);
    same("its kind", "a=1", (long long)out.kind, PERGIDAU_INI_MORE);
    same("its offset", "a=1", (long long)out.value.offset, 9);
    same("null", "get", pergidau_ini_get(NULL, bytes, 1, 0, bytes, 1, bytes, 1, &out), PERGIDAU_NULL);
    same("null", "get", pergidau_ini_get(&state, NULL, 1, 0, bytes, 1, bytes, 1, &out), PERGIDAU_NULL);
    same("null", "get", pergidau_ini_get(&state, bytes, 1, 0, NULL, 1, bytes, 1, &out), PERGIDAU_NULL);
    same("null", "get", pergidau_ini_get(&state, bytes, 1, 0, bytes, 1, NULL, 1, &out), PERGIDAU_NULL);
    same("null", "get", pergidau_ini_get(&state, bytes, 1, 0, bytes, 1, bytes, 1, NULL), PERGIDAU_NULL);
    same("too long", "get",
         pergidau_ini_get(&state, bytes, 1, 0, bytes, (size_t)PTRDIFF_MAX + 1, bytes, 1, &out),
         PERGIDAU_TOO_LONG);
    same("nothing", "get", pergidau_ini_get(&state, NULL, 0, 0, NULL, 0, NULL, 0, &out), PERGIDAU_END);
}

/* The offsets of texts that occur twice in a line, and the state between calls. */
static void test_places_of_ini(void)
{
    const uint8_t *bytes = (const uint8_t *)"[[]\n  a = a\n    a\n";
    struct pergidau_ini_state state = {0};
    struct pergidau_ini_entry entry;
    pergidau_ini_next(&state, bytes, 18, PYTHON, &entry);
    same("a name", "[[]", (long long)entry.key.offset, 1);
    same("the offset", "[[]", (long long)state.offset, 4);
    same("a section", "[[]", (long long)state.section, 1);
    same("no pair", "[[]", (long long)state.pair, 0);
    pergidau_ini_next(&state, bytes, 18, PYTHON, &entry);
    same("a key", "a = a", (long long)entry.key.offset, 6);
    same("a value", "a = a", (long long)entry.value.offset, 10);
    same("a pair", "a = a", (long long)state.pair, 1);
    same("its indentation", "a = a", (long long)state.indent, 2);
    pergidau_ini_next(&state, bytes, 18, PYTHON, &entry);
    same("a continuation line", "a", (long long)entry.value.offset, 16);
    same("the end", "a", pergidau_ini_next(&state, bytes, 18, PYTHON, &entry), PERGIDAU_END);
    state.offset = 19;
    same("past the end", "a", pergidau_ini_next(&state, bytes, 18, PYTHON, &entry), PERGIDAU_END);
    same("null", "next", pergidau_ini_next(NULL, bytes, 1, PYTHON, &entry), PERGIDAU_NULL);
    same("null", "next", pergidau_ini_next(&state, NULL, 1, PYTHON, &entry), PERGIDAU_NULL);
    same("null", "next", pergidau_ini_next(&state, bytes, 1, PYTHON, NULL), PERGIDAU_NULL);
    same("too long", "next",
         pergidau_ini_next(&state, bytes, (size_t)PTRDIFF_MAX + 1, PYTHON, &entry),
         PERGIDAU_TOO_LONG);
    state = (struct pergidau_ini_state){0};
    same("nothing", "next", pergidau_ini_next(&state, NULL, 0, PYTHON, &entry), PERGIDAU_END);
}
