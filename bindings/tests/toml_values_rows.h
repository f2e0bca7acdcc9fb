/* Tables of the values of TOML documents: included by rows.c. The expected date-times are those of
 * Python's tomllib, nanoseconds those of the standard's text, and doubles those of Python's float. */

/* Date-times, and how their parts read; the kind is the number of the part that is missing. */
static const struct {
    const char *text;
    struct pergidau_toml_date_time_parts parts;
} date_times_of_toml[] = {
    {"1979-05-27T07:32:00Z", {PERGIDAU_TOML_OFFSET_DATE_TIME, 0, 1979, 0, 5, 27, 7, 32, 0}},
    {"1979-05-27T00:32:00-07:00", {PERGIDAU_TOML_OFFSET_DATE_TIME, 0, 1979, -420, 5, 27, 0, 32, 0}},
    {"1979-05-27T00:32:00.999999-07:00",
     {PERGIDAU_TOML_OFFSET_DATE_TIME, 999999000, 1979, -420, 5, 27, 0, 32, 0}},
    {"1979-05-27 07:32:00z", {PERGIDAU_TOML_OFFSET_DATE_TIME, 0, 1979, 0, 5, 27, 7, 32, 0}},
    {"1979-05-27t07:32:00.5+05:30",
     {PERGIDAU_TOML_OFFSET_DATE_TIME, 500000000, 1979, 330, 5, 27, 7, 32, 0}},
    {"1979-05-27T07:32:00", {PERGIDAU_TOML_LOCAL_DATE_TIME, 0, 1979, 0, 5, 27, 7, 32, 0}},
    {"1979-05-27T00:32:00.999999", {PERGIDAU_TOML_LOCAL_DATE_TIME, 999999000, 1979, 0, 5, 27, 0, 32, 0}},
    {"1979-05-27", {PERGIDAU_TOML_LOCAL_DATE, 0, 1979, 0, 5, 27, 0, 0, 0}},
    {"2000-02-29", {PERGIDAU_TOML_LOCAL_DATE, 0, 2000, 0, 2, 29, 0, 0, 0}},
    {"07:32:00", {PERGIDAU_TOML_LOCAL_TIME, 0, 0, 0, 0, 0, 7, 32, 0}},
    {"00:32:00.999999", {PERGIDAU_TOML_LOCAL_TIME, 999999000, 0, 0, 0, 0, 0, 32, 0}},
    {"0001-01-01T00:00:00.000001-23:59",
     {PERGIDAU_TOML_OFFSET_DATE_TIME, 1000, 1, -1439, 1, 1, 0, 0, 0}},
    {"9999-12-31 23:59:59.9+23:59",
     {PERGIDAU_TOML_OFFSET_DATE_TIME, 900000000, 9999, 1439, 12, 31, 23, 59, 59}},
    /* A leap second (RFC 3339, section 5.8), and digits that are truncated, as the standard says. */
    {"1990-12-31T15:59:60-08:00", {PERGIDAU_TOML_OFFSET_DATE_TIME, 0, 1990, -480, 12, 31, 15, 59, 60}},
    {"00:00:00.0123456789999", {PERGIDAU_TOML_LOCAL_TIME, 12345678, 0, 0, 0, 0, 0, 0, 0}},
};

static const char *const no_date_times[] = {
    "", "1900-02-29", "1979-02-29", "1979-13-01", "1979-00-10", "1979-05-32", "1979-05-00", "1979-5-27",
    "24:00:00", "07:60:00", "07:32:61", "07:32", "07:32:00.", "07:32:00Z", "1979-05-27T", "1979-05-27Z",
    "1979-05-27T07:32:00.Z", "1979-05-27T07:32:00+24:00", "1979-05-27T07:32:00+07:60",
    "1979-05-27T07:32:00+0700", "1979-05-27T07:32:00+07", "1979-05-27  07:32:00", "1979-05-27T07:32:00 Z",
    "19790527", "1979-05-27_07:32:00", "1979-05-27T07:32:00,5", " 1979-05-27", "1979-05-27\n",
};

static const struct {
    const char *digits;
    enum pergidau_code code;
    uint32_t nanosecond;
} nanoseconds_of_toml[] = {
    {"", PERGIDAU_DONE, 0}, {"0", PERGIDAU_DONE, 0}, {"5", PERGIDAU_DONE, 500000000},
    {"05", PERGIDAU_DONE, 50000000}, {"123456789", PERGIDAU_DONE, 123456789},
    {"999999999999", PERGIDAU_DONE, 999999999}, {"0000000009", PERGIDAU_DONE, 0},
    {".5", PERGIDAU_INVALID, 0}, {"5 ", PERGIDAU_INVALID, 0}, {"0123456789x", PERGIDAU_INVALID, 0},
};

/* A document, names with zeros after each, how many there are, and the value there; 0 is nothing. */
static const char document_to_search[] =
    "a = 1\n\"\" = 2\n[b]\nc = [3, {d = 4}]\n[b.e.f]\ng = 5\n[[h]]\ni = 6\n\"a.b\" = 7\naa = 8\n";
static const struct {
    const char *names;
    size_t count, kind;
    long long value;
} searches[] = {
    {"a", 1, PERGIDAU_TOML_INTEGER, 1}, {"", 1, PERGIDAU_TOML_INTEGER, 2}, {"b\0e\0f\0g", 4, PERGIDAU_TOML_INTEGER, 5},
    {"b\0c", 2, PERGIDAU_TOML_ARRAY, 0}, {"b\0e", 2, PERGIDAU_TOML_TABLE, 0}, {"h", 1, PERGIDAU_TOML_ARRAY, 0},
    {"", 0, PERGIDAU_TOML_TABLE, 0},
};
static const struct {
    const char *names;
    size_t count;
} missing[] = {
    {"A", 1}, {"aa", 1}, {"b.e", 1}, {"b\0", 2}, {"b\0c\0", 3}, {"b\0c\0d", 3}, {"h\0i", 2}, {"a\0a", 2}, {"b\0e\0f\0g\0g", 5},
    {"\0", 2}, {"e", 1},
};

static const struct {
    const char *text;
    enum pergidau_code code;
    double value;
} doubles_of_texts[] = {
    {"2.50", PERGIDAU_DONE, 2.5}, {"-1E+2", PERGIDAU_DONE, -100}, {"+1.0", PERGIDAU_DONE, 1},
    {"-0", PERGIDAU_DONE, -0.0}, {"5e+22", PERGIDAU_DONE, 5e22}, {"6.626e-34", PERGIDAU_DONE, 6.626e-34},
    {"9007199254740993", PERGIDAU_DONE, 0x1p53}, {"9007199254740995", PERGIDAU_DONE, 0x1p53 + 4},
    {"9007199254740993.0000000000000000001", PERGIDAU_DONE, 0x1p53 + 2},
    {"1.00000000000000011102230246251565404236316680908203125", PERGIDAU_DONE, 1},
    {"1.00000000000000011102230246251565404236316680908203126", PERGIDAU_DONE, 0x1.0000000000001p0},
    {"2.4703282292062328e-324", PERGIDAU_DONE, 0x1p-1074}, {"2.4703282292062327e-324", PERGIDAU_DONE, 0},
    {"-1e-400", PERGIDAU_DONE, -0.0}, {"2.2250738585072011e-308", PERGIDAU_DONE, 0x0.fffffffffffffp-1022},
    {"1.7976931348623158e308", PERGIDAU_DONE, 0x1.fffffffffffffp1023},
    {"1.7976931348623159e308", PERGIDAU_DONE, HUGE_VAL}, {"-1e400", PERGIDAU_DONE, -HUGE_VAL},
    {"inf", PERGIDAU_DONE, HUGE_VAL}, {"+inf", PERGIDAU_DONE, HUGE_VAL}, {"-inf", PERGIDAU_DONE, -HUGE_VAL},
    {"-Infinity", PERGIDAU_DONE, -HUGE_VAL}, {".5", PERGIDAU_DONE, 0.5}, {"5.", PERGIDAU_DONE, 5},
    {"", PERGIDAU_INVALID, 0}, {"-", PERGIDAU_INVALID, 0}, {".", PERGIDAU_INVALID, 0},
    {" 1", PERGIDAU_INVALID, 0}, {"1 ", PERGIDAU_INVALID, 0}, {"1e", PERGIDAU_INVALID, 0},
    {"1_0", PERGIDAU_INVALID, 0}, {"0x10", PERGIDAU_INVALID, 0}, {"1,5", PERGIDAU_INVALID, 0},
    {"infinit", PERGIDAU_INVALID, 0}, {"--1", PERGIDAU_INVALID, 0},
};

static void same_parts(const char *text, const struct pergidau_toml_date_time_parts *it,
                       const struct pergidau_toml_date_time_parts *wanted)
{
    same("the kind", text, it->kind, wanted->kind);
    same("the nanosecond", text, it->nanosecond, wanted->nanosecond);
    same("the year", text, it->year, wanted->year);
    same("the month", text, it->month, wanted->month);
    same("the day", text, it->day, wanted->day);
    same("the hour", text, it->hour, wanted->hour);
    same("the minute", text, it->minute, wanted->minute);
    same("the second", text, it->second, wanted->second);
    same("the offset", text, it->offset, wanted->offset);
}

static enum pergidau_code read_date_time(const char *text, struct pergidau_toml_date_time_parts *out)
{
    uint8_t *bytes = copied(text, strlen(text));
    memset(out, 0x5a, sizeof *out);
    enum pergidau_code code = pergidau_toml_date_time(bytes, strlen(text), out);
    free(bytes);
    return code;
}

static void test_date_times(void)
{
    struct pergidau_toml_date_time_parts out, none = {0};
    const uint8_t *one = (const uint8_t *)"1";
    uint32_t nanosecond = 7;
    for (size_t i = 0; i < sizeof date_times_of_toml / sizeof *date_times_of_toml; i++) {
        const char *text = date_times_of_toml[i].text;
        same("a date-time", text, read_date_time(text, &out), PERGIDAU_DONE);
        same_parts(text, &out, &date_times_of_toml[i].parts);
    }
    for (size_t i = 0; i < sizeof no_date_times / sizeof *no_date_times; i++) {
        same("no date-time", no_date_times[i], read_date_time(no_date_times[i], &out), PERGIDAU_INVALID);
        same_parts(no_date_times[i], &out, &none);
    }
    for (size_t i = 0; i < sizeof nanoseconds_of_toml / sizeof *nanoseconds_of_toml; i++) {
        const char *digits = nanoseconds_of_toml[i].digits;
        uint8_t *bytes = copied(digits, strlen(digits));
        nanosecond = 7;
        same("nanoseconds", digits, pergidau_toml_nanosecond(bytes, strlen(digits), &nanosecond),
             nanoseconds_of_toml[i].code);
        same("the nanosecond", digits, nanosecond, nanoseconds_of_toml[i].nanosecond);
        free(bytes);
    }
    same("null", "date-time", pergidau_toml_date_time(NULL, 1, &out), PERGIDAU_NULL);
    same("null", "parts", pergidau_toml_date_time(one, 1, NULL), PERGIDAU_NULL);
    same("null", "digits", pergidau_toml_nanosecond(NULL, 1, &nanosecond), PERGIDAU_NULL);
    same("null", "nanosecond", pergidau_toml_nanosecond(one, 1, NULL), PERGIDAU_NULL);
    same("nothing", "nanosecond", pergidau_toml_nanosecond(NULL, 0, &nanosecond), PERGIDAU_DONE);
    same("too long", "date-time", pergidau_toml_date_time(one, (size_t)PTRDIFF_MAX + 1, &out),
         PERGIDAU_TOO_LONG);
}

/* Searches for names that are in one text, each with a zero after it. */
static enum pergidau_code search(const struct toml *it, size_t table, const char *names, size_t count,
                                 size_t *out)
{
    struct pergidau_bytes parts[8];
    for (size_t i = 0; i < count; i++) {
        size_t length = strlen(names);
        parts[i] = (struct pergidau_bytes){(const uint8_t *)names, length};
        names += length + 1;
    }
    *out = 99;
    return pergidau_toml_find(it->text, it->found.text, it->nodes, it->found.nodes, table, parts, count, out);
}

static void test_searches(void)
{
    struct toml it;
    size_t at, table;
    struct pergidau_bytes null = {NULL, 0};
    same("a document", "searches", read_toml(document_to_search, 8, MOST_TEXT_OF_TOML, MOST_NODES_OF_TOML, &it),
         PERGIDAU_DONE);
    for (size_t i = 0; i < sizeof searches / sizeof *searches; i++) {
        same("a search", searches[i].names, search(&it, 0, searches[i].names, searches[i].count, &at),
             PERGIDAU_DONE);
        same("the kind", searches[i].names, at < it.found.nodes ? it.nodes[at].value.kind : 99, searches[i].kind);
        same("the value", searches[i].names, at < it.found.nodes ? it.nodes[at].value.integer : 99,
             searches[i].value);
    }
    for (size_t i = 0; i < sizeof missing / sizeof *missing; i++) {
        same("no value", missing[i].names, search(&it, 0, missing[i].names, missing[i].count, &at),
             PERGIDAU_END);
        same("the number", missing[i].names, (long long)at, 0);
    }
    /* From other tables: of dotted keys, in an array, and a number that no node has. */
    search(&it, 0, "h", 1, &table);
    same("no entry", "of an array", search(&it, table, "i", 1, &at), PERGIDAU_END);
    same("an entry", "i", search(&it, it.nodes[table].first, "i", 1, &at), PERGIDAU_DONE);
    same("the value", "i", it.nodes[at].value.integer, 6);
    same("an entry", "a.b", search(&it, it.nodes[table].first, "a.b", 1, &at), PERGIDAU_DONE);
    same("the value", "a.b", it.nodes[at].value.integer, 7);
    same("no node", "table", search(&it, it.found.nodes, "", 0, &at), PERGIDAU_END);
    same("no node", "table", search(&it, (size_t)-1, "a", 1, &at), PERGIDAU_END);
    const size_t text = it.found.text, nodes = it.found.nodes;
    same("null", "text", pergidau_toml_find(NULL, 1, it.nodes, nodes, 0, NULL, 0, &at), PERGIDAU_NULL);
    same("null", "nodes", pergidau_toml_find(it.text, text, NULL, 1, 0, NULL, 0, &at), PERGIDAU_NULL);
    same("null", "names", pergidau_toml_find(it.text, text, it.nodes, nodes, 0, NULL, 1, &at), PERGIDAU_NULL);
    same("null", "a name", pergidau_toml_find(it.text, text, it.nodes, nodes, 0, &null, 1, &at),
         PERGIDAU_NULL);
    same("null", "out", pergidau_toml_find(it.text, text, it.nodes, nodes, 0, NULL, 0, NULL), PERGIDAU_NULL);
    same("nothing", "nodes", pergidau_toml_find(NULL, 0, NULL, 0, 0, NULL, 0, &at), PERGIDAU_END);
    same("too long", "nodes",
         pergidau_toml_find(it.text, text, it.nodes, PTRDIFF_MAX / sizeof *it.nodes + 1, 0, NULL, 0, &at),
         PERGIDAU_TOO_LONG);
}

static void test_doubles(void)
{
    double out;
    for (size_t i = 0; i < sizeof doubles_of_texts / sizeof *doubles_of_texts; i++) {
        const char *text = doubles_of_texts[i].text;
        uint8_t *bytes = copied(text, strlen(text));
        out = 7;
        same("a double", text, pergidau_text_double(bytes, strlen(text), &out), doubles_of_texts[i].code);
        same("the bits", text, memcmp(&out, &doubles_of_texts[i].value, sizeof out), 0);
        free(bytes);
    }
    same("nan", "nan", pergidau_text_double((const uint8_t *)"-nan", 4, &out), PERGIDAU_DONE);
    same("the double", "nan", isnan(out) != 0, 1);
    same("null", "double", pergidau_text_double(NULL, 1, &out), PERGIDAU_NULL);
    same("null", "out", pergidau_text_double((const uint8_t *)"1", 1, NULL), PERGIDAU_NULL);
    same("nothing", "double", pergidau_text_double(NULL, 0, &out), PERGIDAU_INVALID);
    same("too long", "double", pergidau_text_double((const uint8_t *)"1", (size_t)PTRDIFF_MAX + 1, &out),
         PERGIDAU_TOO_LONG);
}
