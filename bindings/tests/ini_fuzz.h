/* Compares the INI reader, in any dialect, with a parser that follows the header's documentation, on
 * random bytes. Included by `fuzz.c`, after the helpers that it uses. */

static bool is_blank(uint8_t byte)
{
    return byte == ' ' || byte == '\t' || byte == '\f' || byte == '\r';
}

/* Whether the bytes are UTF-8 (RFC 3629). */
static bool is_text(const uint8_t *bytes, size_t length)
{
    for (size_t at = 0; at < length;) {
        uint8_t lead = bytes[at++], least = 0x80, most = 0xBF;
        size_t more = lead < 0x80 ? 0 : lead < 0xE0 ? 1 : lead < 0xF0 ? 2 : 3;
        if ((lead >= 0x80 && lead < 0xC2) || lead > 0xF4 || more > length - at) {
            return false;
        }
        least = lead == 0xE0 ? 0xA0 : lead == 0xF0 ? 0x90 : least;
        most = lead == 0xED ? 0x9F : lead == 0xF4 ? 0x8F : most;
        for (; more > 0; more--, at++, least = 0x80, most = 0xBF) {
            if (bytes[at] < least || bytes[at] > most) {
                return false;
            }
        }
    }
    return true;
}

static bool is_one(size_t dialect, size_t first, uint8_t byte, char a, char b)
{
    return ((dialect & first) && byte == a) || ((dialect & (first << 1)) && byte == b);
}

/* Returns the span between two offsets without the blanks at both ends. */
static struct pergidau_span without_blanks(const uint8_t *bytes, size_t from, size_t to)
{
    while (from < to && is_blank(bytes[from])) {
        from++;
    }
    while (from < to && is_blank(bytes[to - 1])) {
        to--;
    }
    return (struct pergidau_span){from, to - from};
}

/* The state after a line: whether there was a section, and the indentation of the pair that the next
 * line may continue, or a negative number if there is no such pair. */
struct before {
    bool section;
    long blanks;
};

/* Parses the section header or the pair in the span `text`. */
static enum pergidau_code own_by_hand(const uint8_t *bytes, struct pergidau_span text,
                                      size_t dialect, struct before *before,
                                      struct pergidau_ini_entry *out)
{
    size_t end = text.offset + text.length, at = text.offset;
    bool loose = dialect & PERGIDAU_INI_DIALECT_LOOSE_SECTIONS;
    if (bytes[at] == '[' && loose) {
        size_t last = end - 1;
        while (last > at && bytes[last] != ']') {
            last--;
        }
        if (last > at + 1) {
            *before = (struct before){true, -1};
            out->kind = PERGIDAU_INI_SECTION;
            out->key = (struct pergidau_span){at + 1, last - at - 1};
            return PERGIDAU_DONE;
        }
    } else if (bytes[at] == '[') {
        const uint8_t *closed = memchr(bytes + at, ']', text.length);
        size_t name = closed ? (size_t)(closed - bytes) - at - 1 : 0;
        if (closed == NULL || name == 0 || at + name + 2 < end) {
            out->error = closed == NULL ? PERGIDAU_INI_ERROR_UNCLOSED_SECTION
                : name == 0             ? PERGIDAU_INI_ERROR_EMPTY_SECTION
                                        : PERGIDAU_INI_ERROR_TRAILING_TEXT;
            return PERGIDAU_INVALID;
        }
        *before = (struct before){true, -1};
        out->kind = PERGIDAU_INI_SECTION;
        out->key = (struct pergidau_span){at + 1, name};
        return PERGIDAU_DONE;
    }
    if (!before->section && !(dialect & PERGIDAU_INI_DIALECT_BEFORE_SECTIONS)) {
        out->error = PERGIDAU_INI_ERROR_MISSING_SECTION;
        return PERGIDAU_INVALID;
    }
    size_t ends = dialect & 3 ? dialect & 3 : 3;
    while (at < end && !is_one(ends, 1, bytes[at], '=', ':')) {
        at++;
    }
    if (at == text.offset || (at == end && !(dialect & PERGIDAU_INI_DIALECT_VALUELESS))) {
        out->error = at == end ? PERGIDAU_INI_ERROR_MISSING_DELIMITER
                               : PERGIDAU_INI_ERROR_MISSING_KEY;
        return PERGIDAU_INVALID;
    }
    out->kind = at < end ? PERGIDAU_INI_PAIR : PERGIDAU_INI_KEY;
    out->key = without_blanks(bytes, text.offset, at);
    if (at < end) {
        out->value = without_blanks(bytes, at + 1, end);
    }
    return PERGIDAU_DONE;
}

/* Parses the next entry from offset `*at` on, and moves the offset after its line. */
static enum pergidau_code next_by_hand(const uint8_t *bytes, size_t length, size_t dialect,
                                       size_t *at, struct before *before,
                                       struct pergidau_ini_entry *out)
{
    for (; *at < length;) {
        *out = (struct pergidau_ini_entry){0};
        size_t start = *at, end = start;
        while (end < length && bytes[end] != '\n') {
            end++;
        }
        size_t behind = end + (end < length), kept = start;
        if (!is_text(bytes + start, end - start)) {
            out->error_offset = start;
            return PERGIDAU_INVALID_UTF8;
        }
        for (; kept < end; kept++) {
            if ((kept == start || is_blank(bytes[kept - 1]))
                && is_one(dialect, 16, bytes[kept], '#', ';')) {
                break;
            }
        }
        struct pergidau_span text = without_blanks(bytes, start, kept);
        bool past = dialect & PERGIDAU_INI_DIALECT_PAST_EMPTY;
        bool until = !past && (dialect & PERGIDAU_INI_DIALECT_UNTIL_EMPTY);
        if (text.length == 0 || is_one(dialect, 4, bytes[text.offset], '#', ';')) {
            *at = behind;
            before->blanks = until ? -1 : before->blanks;
            if (past && before->blanks >= 0 && text.length == 0 && kept == end) {
                out->kind = PERGIDAU_INI_MORE;
                out->value.offset = start;
                return PERGIDAU_DONE;
            }
            continue;
        }
        long blanks = (long)(text.offset - start);
        if (before->blanks >= 0 && blanks > before->blanks) {
            *at = behind;
            out->kind = PERGIDAU_INI_MORE;
            out->value = text;
            return PERGIDAU_DONE;
        }
        enum pergidau_code code = own_by_hand(bytes, text, dialect, before, out);
        if (code == PERGIDAU_INVALID) {
            out->error_offset = start;
            return code;
        }
        if (out->kind != PERGIDAU_INI_SECTION) {
            before->blanks = (past || until) && out->kind == PERGIDAU_INI_PAIR ? blanks : -1;
        }
        *at = behind;
        return code;
    }
    *out = (struct pergidau_ini_entry){0};
    return PERGIDAU_END;
}

/* Compares a lookup with a pass over all entries. Names and keys are spans of the bytes. */
static void look_up_ini(const uint8_t *bytes, size_t length, size_t dialect)
{
    struct pergidau_span name = {0, 0}, key = {0, 0}, here = {0, 0};
    struct pergidau_ini_state ours = {below(9), below(2), below(2), below(9)}, state = {0};
    struct pergidau_ini_entry out, want;
    enum pergidau_code code;
    for (size_t left = below(9); pergidau_ini_next(&state, bytes, length, dialect, &want)
                                 == PERGIDAU_DONE; left--) {
        here = want.kind == PERGIDAU_INI_SECTION ? want.key : here;
        if (left == 0 && want.kind != PERGIDAU_INI_MORE) {
            name = here;
            key = want.key;
        }
    }
    state = (struct pergidau_ini_state){0};
    bool is_within = name.length == 0;
    while ((code = pergidau_ini_next(&state, bytes, length, dialect, &want)) == PERGIDAU_DONE) {
        bool is_key = want.key.length == key.length
            && !memcmp(bytes + want.key.offset, bytes + key.offset, key.length);
        if (want.kind == PERGIDAU_INI_SECTION) {
            is_within = want.key.length == name.length
                && !memcmp(bytes + want.key.offset, bytes + name.offset, name.length);
        } else if (is_within && is_key && want.kind != PERGIDAU_INI_MORE) {
            break;
        }
    }
    HOLDS(pergidau_ini_get(&ours, bytes, length, dialect, bytes + name.offset, name.length,
                           bytes + key.offset, key.length, &out) == code);
    HOLDS(!memcmp(&out, &want, sizeof out));
    HOLDS(!memcmp(&ours, &state, sizeof ours));
}

static void read_ini(const uint8_t *bytes, size_t length)
{
    static const size_t known[] = {
        PERGIDAU_INI_DIALECT_PYTHON, PERGIDAU_INI_DIALECT_DESKTOP, PERGIDAU_INI_DIALECT_LENIENT,
    };
    size_t dialect = below(2) ? known[below(3)] : below(4096);
    struct pergidau_ini_state ours = {0};
    struct pergidau_ini_entry out, want;
    struct before before = {false, -1};
    size_t at = length >= 3 && !memcmp(bytes, "\xef\xbb\xbf", 3) ? 3 : 0;
    enum pergidau_code code;
    do {
        enum pergidau_code by_hand = next_by_hand(bytes, length, dialect, &at, &before, &want);
        code = pergidau_ini_next(&ours, bytes, length, dialect, &out);
        HOLDS(code == by_hand);
        HOLDS(!memcmp(&out, &want, sizeof out));
        HOLDS(ours.offset == at || at == 3);
    } while (code == PERGIDAU_DONE);
    look_up_ini(bytes, length, dialect);
    /* A state that may be invalid. */
    struct pergidau_ini_state other = {below(length + 3), below(3), below(3), below(5)};
    code = pergidau_ini_next(&other, bytes, length, dialect, &out);
    HOLDS(code != PERGIDAU_DONE || (within(out.key, length) && within(out.value, length)));
    HOLDS(out.error_offset <= length);
}
