/* Compares the readers of JSON steps, strings and integers with parsers written here, on random
 * bytes. Included by `fuzz.c`, after the helpers that it uses. */

/* Parses four hexadecimal digits at `at` into `unit`, and returns whether they are there. */
static bool is_digits(const uint8_t *bytes, size_t length, size_t at, uint32_t *unit)
{
    *unit = 0;
    for (size_t i = at; i < at + 4; i++) {
        static const char digits[] = "0123456789abcdef0123456789ABCDEF";
        const char *found = i < length && bytes[i] ? strchr(digits, bytes[i]) : NULL;
        if (found == NULL) {
            return false;
        }
        *unit = *unit * 16 + (uint32_t)(found - digits) % 16;
    }
    return true;
}

/* Writes a character as UTF-8, and returns its length in bytes. */
static size_t put_character(uint8_t *out, uint32_t code)
{
    if (code < 0x80) {
        out[0] = (uint8_t)code;
        return 1;
    }
    size_t more = code < 0x800 ? 1 : code < 0x10000 ? 2 : 3;
    out[0] = (uint8_t)((0xFF00u >> (more + 1)) | (code >> (6 * more)));
    for (size_t i = 1; i <= more; i++) {
        out[i] = (uint8_t)(0x80 | ((code >> (6 * (more - i))) & 0x3F));
    }
    return more + 1;
}

/* Decodes the JSON string at the start of the input (RFC 8259, section 7) into `out`, and stores the
 * length of the decoded text in `size`. Returns the length of the string, or 0 if it is invalid. */
static size_t string_by_hand(const uint8_t *bytes, size_t length, uint8_t *out, size_t *size)
{
    static const char marks[] = "\"\\/bfnrt", meant[] = "\"\\/\b\f\n\r\t";
    *size = 0;
    if (length == 0 || bytes[0] != '"') {
        return 0;
    }
    for (size_t at = 1; at < length;) {
        const char *mark;
        uint32_t unit, low;
        if (bytes[at] == '"') {
            return at + 1;
        } else if (bytes[at] < 32) {
            return 0;
        } else if (bytes[at] != '\\') {
            out[(*size)++] = bytes[at++];
        } else if (at + 1 < length && bytes[at + 1] && (mark = strchr(marks, bytes[at + 1])) != NULL) {
            out[(*size)++] = (uint8_t)meant[mark - marks];
            at += 2;
        } else if (at + 1 < length && bytes[at + 1] == 'u' && is_digits(bytes, length, at + 2, &unit)) {
            at += 6;
            if (unit >= 0xD800 && unit <= 0xDFFF) {
                if (unit > 0xDBFF || at + 1 >= length || bytes[at] != '\\' || bytes[at + 1] != 'u'
                    || !is_digits(bytes, length, at + 2, &low) || low < 0xDC00 || low > 0xDFFF) {
                    return 0;
                }
                unit = 0x10000 + ((unit - 0xD800) << 10) + (low - 0xDC00);
                at += 6;
            }
            *size += put_character(out + *size, unit);
        } else {
            return 0;
        }
    }
    return 0;
}

static void read_string(const uint8_t *bytes, size_t length)
{
    static uint8_t wanted[1 << 16];
    size_t size, string = string_by_hand(bytes, length, wanted, &size);
    size_t room_for = below(2) ? length : below(8);
    uint8_t *text = buffer(room_for);
    struct pergidau_json_text out;
    enum pergidau_code code = pergidau_json_string(bytes, length, text, room_for, &out);
    if (string == 0) {
        HOLDS(code == PERGIDAU_INVALID && out.text == 0 && out.length == 0);
        return;
    }
    HOLDS(out.length == string && out.text == size);
    HOLDS(code == (size <= room_for ? PERGIDAU_DONE : PERGIDAU_BUFFER_TOO_SMALL));
    if (code == PERGIDAU_DONE) {
        HOLDS(memcmp(text, wanted, size) == 0);
        for (size_t i = size; i < room_for; i++) {
            HOLDS(text[i] == 0xab);
        }
    }
}

/* Returns the length of the longest number (RFC 8259, section 6) at the start of the input, and stores
 * its length without fraction and exponent in `whole`. */
static size_t number_by_hand(const uint8_t *bytes, size_t length, size_t *whole)
{
    size_t at = length > 0 && bytes[0] == '-', end, more;
    size_t first = at;
    while (at < length && bytes[at] >= '0' && bytes[at] <= '9' && !(at > first && bytes[first] == '0')) {
        at++;
    }
    if (at == first) {
        return 0;
    }
    *whole = end = at;
    if (at < length && bytes[at] == '.') {
        for (more = at + 1; more < length && bytes[more] >= '0' && bytes[more] <= '9'; more++) {
        }
        end = at = more > at + 1 ? more : at;
    }
    if (at < length && (bytes[at] == 'e' || bytes[at] == 'E')) {
        bool is_signed = at + 1 < length && (bytes[at + 1] == '+' || bytes[at + 1] == '-');
        at += is_signed ? 2 : 1;
        for (more = at; more < length && bytes[more] >= '0' && bytes[more] <= '9'; more++) {
        }
        end = more > at ? more : end;
    }
    return end;
}

static void read_integer(const uint8_t *bytes, size_t length)
{
    int64_t found;
    uint64_t natural;
    enum pergidau_code code = pergidau_json_integer(bytes, length, &found);
    enum pergidau_code other = pergidau_json_natural(bytes, length, &natural);
    size_t whole = 0, number = number_by_hand(bytes, length, &whole);
    if (number == 0) {
        HOLDS(code == PERGIDAU_INVALID && other == PERGIDAU_INVALID && found == 0 && natural == 0);
        return;
    }
    bool minus = bytes[0] == '-', fits = number == whole;
    uint64_t size = 0;
    for (size_t i = minus; i < whole && fits; i++) {
        uint64_t digit = bytes[i] - (uint64_t)'0';
        fits = size <= (UINT64_MAX - digit) / 10;
        size = size * 10 + digit;
    }
    bool is_natural = fits && !minus;
    bool is_integer = fits && size <= (uint64_t)INT64_MAX + minus;
    HOLDS(other == (is_natural ? PERGIDAU_DONE : PERGIDAU_NOT_AN_INTEGER));
    HOLDS(natural == (is_natural ? size : 0));
    HOLDS(code == (is_integer ? PERGIDAU_DONE : PERGIDAU_NOT_AN_INTEGER));
    HOLDS(found == (is_integer ? (minus ? (int64_t)(0 - size) : (int64_t)size) : 0));
}

/* Counts the items that successive calls return for a text, at all depths. */
static size_t items(const uint8_t *bytes, size_t length, size_t max_depth)
{
    struct pergidau_json_item item;
    size_t count = 0;
    while (pergidau_json_next(bytes, length, max_depth, &item) == PERGIDAU_DONE) {
        const uint8_t *value = bytes + item.span.offset;
        count++;
        if (item.kind == PERGIDAU_JSON_ARRAY || item.kind == PERGIDAU_JSON_OBJECT) {
            count += items(value + 1, item.span.length - 1, max_depth - 1);
        }
        length -= item.span.offset + item.span.length;
        bytes = value + item.span.length;
    }
    return count;
}

/* Checks that the steps of a text are its items, each once, and that its brackets are balanced. */
static void read_steps(const uint8_t *bytes, size_t length)
{
    size_t max_depth = below(8), left = length, count = 0, open = 0;
    bool is_text = pergidau_json_check(bytes, length, max_depth) == PERGIDAU_DONE;
    struct pergidau_json_item step;
    enum pergidau_code code;
    const uint8_t *from = bytes;
    while ((code = pergidau_json_step(from, left, &step)) == PERGIDAU_DONE) {
        HOLDS(within(step.span, left) && step.span.length > 0);
        HOLDS(step.kind != PERGIDAU_JSON_ARRAY && step.kind != PERGIDAU_JSON_OBJECT);
        bool begins = step.kind == PERGIDAU_JSON_BEGIN_ARRAY || step.kind == PERGIDAU_JSON_BEGIN_OBJECT;
        bool ends = step.kind == PERGIDAU_JSON_END_ARRAY || step.kind == PERGIDAU_JSON_END_OBJECT;
        count += !ends;
        HOLDS(!is_text || !ends || open > 0);
        open += begins;
        open -= ends;
        from += step.span.offset + step.span.length;
        left -= step.span.offset + step.span.length;
    }
    HOLDS(code == PERGIDAU_END || code == PERGIDAU_INVALID);
    HOLDS(step.span.offset == 0 && step.span.length == 0);
    HOLDS(!is_text || (code == PERGIDAU_END && open == 0 && count == items(bytes, length, max_depth)));
}

static void read_decimal(const uint8_t *bytes, size_t length);

/* Reads a string or a number at each byte where one may begin. */
static void read_tokens(const uint8_t *bytes, size_t length)
{
    read_steps(bytes, length);
    for (size_t at = 0; at < length; at++) {
        if (bytes[at] == '"') {
            read_string(bytes + at, length - at);
        } else if (bytes[at] == '-' || (bytes[at] >= '0' && bytes[at] <= '9')) {
            read_integer(bytes + at, length - at);
            read_decimal(bytes + at, length - at);
        }
    }
    read_string(bytes, length);
    read_integer(bytes, length);
    read_decimal(bytes, length);
}
