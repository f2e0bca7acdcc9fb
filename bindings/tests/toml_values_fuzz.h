/* Compares the values of TOML documents with independent functions, on random bytes. Included by
 * `fuzz.c`. */

/* Reads a number of digits, and moves after them; below 0 if there are fewer. */
static int digits_of(const uint8_t **at, const uint8_t *end, int count)
{
    int number = 0;
    for (; count > 0; count--, ++*at) {
        if (*at == end || **at < '0' || **at > '9') {
            return -1;
        }
        number = number * 10 + (**at - '0');
    }
    return number;
}

/* Reads a number of two digits after a mark, at most `most`. */
static int after_mark(const uint8_t **at, const uint8_t *end, char mark, int most)
{
    if (*at == end || **at != (uint8_t)mark) {
        return -1;
    }
    ++*at;
    int number = digits_of(at, end, 2);
    return number <= most ? number : -1;
}

/* Reads a time, and an offset if there may be one; false if there is none. */
static bool time_of(const uint8_t *at, const uint8_t *end, bool dated,
                    struct pergidau_toml_date_time_parts *it)
{
    int hour = digits_of(&at, end, 2), minute = after_mark(&at, end, ':', 59);
    int second = after_mark(&at, end, ':', 60);
    if (hour < 0 || hour > 23 || minute < 0 || second < 0) {
        return false;
    }
    it->hour = (uint8_t)hour, it->minute = (uint8_t)minute, it->second = (uint8_t)second;
    if (at < end && *at == '.') {
        uint32_t unit = 100000000;
        const uint8_t *first = ++at;
        for (; at < end && *at >= '0' && *at <= '9'; at++, unit /= 10) {
            it->nanosecond += unit * (uint32_t)(*at - '0');
        }
        if (at == first) {
            return false;
        }
    }
    if (at < end && dated && (*at | 32) == 'z') {
        it->kind = PERGIDAU_TOML_OFFSET_DATE_TIME;
        at++;
    } else if (at < end && dated && (*at == '+' || *at == '-')) {
        int sign = *at++ == '-' ? -1 : 1;
        hour = digits_of(&at, end, 2), minute = after_mark(&at, end, ':', 59);
        if (hour < 0 || hour > 23 || minute < 0) {
            return false;
        }
        it->offset = (int16_t)(sign * (hour * 60 + minute));
        it->kind = PERGIDAU_TOML_OFFSET_DATE_TIME;
    }
    return at == end;
}

/* The parts of a date-time; false if the bytes are none. */
static bool date_time_of(const uint8_t *bytes, size_t length, struct pergidau_toml_date_time_parts *it)
{
    static const int days[] = {31, 28, 31, 30, 31, 30, 31, 31, 30, 31, 30, 31};
    const uint8_t *at = bytes, *end = bytes + length;
    memset(it, 0, sizeof *it);
    if (length > 2 && bytes[2] == ':') {
        it->kind = PERGIDAU_TOML_LOCAL_TIME;
        return time_of(at, end, false, it);
    }
    int year = digits_of(&at, end, 4), month = after_mark(&at, end, '-', 12);
    int day = after_mark(&at, end, '-', 31);
    if (year < 0 || month < 1 || day < 1) {
        return false;
    }
    bool leap = (year % 4 == 0 && year % 100 != 0) || year % 400 == 0;
    if (day > days[month - 1] + (month == 2 && leap)) {
        return false;
    }
    it->year = (uint16_t)year, it->month = (uint8_t)month, it->day = (uint8_t)day;
    it->kind = at == end ? PERGIDAU_TOML_LOCAL_DATE : PERGIDAU_TOML_LOCAL_DATE_TIME;
    return at == end || (strchr("Tt ", *at) && *at && time_of(at + 1, end, true, it));
}

static void compare_date_time(const uint8_t *bytes, size_t length)
{
    struct pergidau_toml_date_time_parts out, wanted;
    bool is = date_time_of(bytes, length, &wanted);
    HOLDS(pergidau_toml_date_time(bytes, length, &out) == (is ? PERGIDAU_DONE : PERGIDAU_INVALID));
    if (!is) {
        memset(&wanted, 0, sizeof wanted);
    }
    HOLDS(out.kind == wanted.kind && out.nanosecond == wanted.nanosecond && out.offset == wanted.offset);
    HOLDS(out.year == wanted.year && out.month == wanted.month && out.day == wanted.day);
    HOLDS(out.hour == wanted.hour && out.minute == wanted.minute && out.second == wanted.second);
}

/* Finds the random bytes, and texts that are nearly date-times. */
static void read_date_times(const uint8_t *bytes, size_t length)
{
    static const char *const forms[] = {
        "2000-02-29T23:59:60.123456789+23:59", "1900-02-28 00:00:00Z", "1979-05-27", "07:32:00.5",
    };
    compare_date_time(bytes, length);
    const char *form = forms[below(4)];
    size_t size = strlen(form);
    uint8_t *text = buffer(size);
    memcpy(text, form, size);
    for (size_t turns = below(3); turns > 0; turns--) {
        text[below(size)] = (uint8_t)"0123456789-:.TtZz+ "[below(19)];
    }
    compare_date_time(text, size - (below(4) == 0 ? below(size) : 0));
}

/* A decimal number is the double that strtod finds, in the locale "C". */
static void read_doubles(const uint8_t *bytes, size_t length)
{
    char text[80];
    double out, any;
    uint64_t bits = random_number();
    memcpy(&any, &bits, sizeof any);
    if (any - any == 0) {
        int size = snprintf(text, sizeof text, below(2) ? "%.*e" : "%.*g", (int)below(24), any);
        HOLDS(pergidau_text_double((const uint8_t *)text, (size_t)size, &out) == PERGIDAU_DONE);
        any = strtod(text, NULL);
        HOLDS(!memcmp(&out, &any, sizeof out));
    }
    if (length < sizeof text && !memchr(bytes, 0, length)) {
        char *end;
        memcpy(text, bytes, length);
        text[length] = 0;
        any = strtod(text, &end);
        bool done = pergidau_text_double(bytes, length, &out) == PERGIDAU_DONE;
        /* (strtod also accepts whitespace, hexadecimal numbers and the payload of a NaN) */
        HOLDS(!done || (end == text + length && (!memcmp(&out, &any, sizeof out) || any != any)));
        HOLDS(done || length == 0 || end != text + length || strpbrk(text, " \t\n\v\f\rxX("));
    }
}

/* Each node of a document is found along its names, from the nearest array above it or the first
 * node, and an entry of another name is not. */
static void find_nodes(const uint8_t *bytes, size_t length, const uint8_t *text, size_t size,
                       const struct pergidau_toml_node *nodes, size_t count)
{
    struct pergidau_bytes names[64];
    size_t at = below(count), top = at, deep = 0, found;
    for (; top > 0 && !nodes[top].is_element && deep < 64; top = nodes[top].parent) {
        struct pergidau_bytes name = {text + nodes[top].name.offset, nodes[top].name.length};
        deep++;
        names[64 - deep] = name;
    }
    HOLDS(pergidau_toml_find(text, size, nodes, count, top, names + 64 - deep, deep, &found)
          == PERGIDAU_DONE && found == at);
    struct pergidau_bytes other = {bytes, below(length + 1)};
    size_t table = below(count + 1), wanted = 0;
    for (size_t i = 1; i < count; i++) {
        if (nodes[i].parent == table && !nodes[i].is_element && nodes[i].name.length == other.bytes_length
            && !memcmp(text + nodes[i].name.offset, other.bytes, other.bytes_length)) {
            wanted = i;
        }
    }
    HOLDS(pergidau_toml_find(text, size, nodes, count, table, &other, 1, &found)
          == (wanted ? PERGIDAU_DONE : PERGIDAU_END) && found == wanted);
}

/* Any bytes as nodes: a number of a node is written, or 0. */
static void find_anywhere(const uint8_t *bytes, size_t length)
{
    struct pergidau_toml_node nodes[4];
    struct pergidau_bytes names[2] = {{bytes, 0}, {bytes, below(length + 1)}};
    size_t found;
    memset(nodes, 0, sizeof nodes);
    for (size_t i = 0; i < 4; i++) {
        nodes[i].first = below(6), nodes[i].next = below(6), nodes[i].parent = below(6);
        nodes[i].name.offset = below(length + 2), nodes[i].name.length = below(length + 2);
        nodes[i].name.offset -= below(99) == 0 ? 5 : 0;
    }
    enum pergidau_code code =
        pergidau_toml_find(bytes, length, nodes, 4, below(5), names, below(3), &found);
    HOLDS(found < 4 && (code == PERGIDAU_DONE || (code == PERGIDAU_END && found == 0)));
}
