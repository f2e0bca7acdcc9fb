/* Compares the errors of JSON texts, the decimals of numbers and the search for members with simpler
 * functions written here, on random bytes. Included by `fuzz.c`, after `json_fuzz.h`. */

/* Checks that the bytes before the error are a prefix of a text, and that those up to the next byte are
 * not. */
static void read_diagnosis(const uint8_t *bytes, size_t length)
{
    size_t max_depth = below(8);
    struct pergidau_json_diagnostic out, other;
    struct pergidau_position at;
    enum pergidau_code check = pergidau_json_check(bytes, length, max_depth);
    enum pergidau_code code = pergidau_json_diagnose(bytes, length, max_depth, &out);
    HOLDS((check == PERGIDAU_DONE) == (code == PERGIDAU_DONE));
    HOLDS((out.error == PERGIDAU_JSON_ERROR_LETTER) == (out.letter != 0));
    if (code == PERGIDAU_DONE) {
        HOLDS(out.offset == 0 && out.line == 0 && out.column == 0 && out.error == 0);
        return;
    }
    HOLDS(out.offset <= length && out.error != 0);
    HOLDS((code == PERGIDAU_TOO_DEEP) == (out.error == PERGIDAU_JSON_ERROR_DEPTH));
    HOLDS((code == PERGIDAU_INCOMPLETE) == (out.offset == length));
    pergidau_text_position(bytes, length, out.offset, &at);
    HOLDS(at.line == out.line && at.column == out.column);
    enum pergidau_code before = pergidau_json_diagnose(bytes, out.offset, max_depth, &other);
    HOLDS(before == PERGIDAU_DONE || (before == PERGIDAU_INCOMPLETE && other.offset == out.offset)
          || (before == PERGIDAU_INVALID_UTF8 && other.offset <= out.offset));
    if (code == PERGIDAU_INVALID || code == PERGIDAU_TOO_DEEP) {
        enum pergidau_code with = pergidau_json_diagnose(bytes, out.offset + 1, max_depth, &other);
        HOLDS(with == PERGIDAU_INVALID_UTF8 || (with == code && other.offset == out.offset));
    }
}

/* Converts the number at the start of the input; returns whether its decimal fits. */
static bool decimal_by_hand(const uint8_t *bytes, size_t length, struct pergidau_decimal *out)
{
    long long power = 0, places = 0, zeros = 0;
    bool is_fraction = false, fits = true, is_minus = false;
    uint64_t digits = 0;
    size_t at = bytes[0] == '-';
    for (; at < length && bytes[at] != 'e' && bytes[at] != 'E'; at++) {
        if (bytes[at] == '.') {
            is_fraction = true;
            continue;
        }
        places += is_fraction;
        if (bytes[at] == '0') {
            zeros++;
            continue;
        }
        for (; zeros > 0 && digits > 0; zeros--) {
            fits = fits && digits <= UINT64_MAX / 10;
            digits *= 10;
        }
        zeros = 0;
        uint64_t digit = bytes[at] - (uint64_t)'0';
        fits = fits && digits <= (UINT64_MAX - digit) / 10;
        digits = digits * 10 + digit;
    }
    for (at++; at < length; at++) {
        if (bytes[at] >= '0' && bytes[at] <= '9') {
            power = power > INT64_MAX / 100 ? power : power * 10 + bytes[at] - '0';
        } else {
            is_minus = bytes[at] == '-';
        }
    }
    memset(out, 0, sizeof *out);
    if (fits && digits == 0) {
        return true;
    }
    power = (is_minus ? -power : power) - places + zeros;
    if (!fits || power < INT32_MIN || power > INT32_MAX) {
        return false;
    }
    *out = (struct pergidau_decimal){digits, (int32_t)power, bytes[0] == '-'};
    return true;
}

static void read_decimal(const uint8_t *bytes, size_t length)
{
    struct pergidau_decimal out, wanted = {0, 0, false};
    size_t whole = 0, number = number_by_hand(bytes, length, &whole);
    enum pergidau_code code = pergidau_json_decimal(bytes, length, &out);
    HOLDS((code == PERGIDAU_INVALID) == (number == 0));
    if (number > 0) {
        HOLDS((code == PERGIDAU_DONE) == decimal_by_hand(bytes, number, &wanted));
    }
    HOLDS(out.digits == wanted.digits && out.exponent == wanted.exponent);
    HOLDS(out.negative == wanted.negative);
}

/* Decodes a reference token of a JSON pointer. */
static size_t token_by_hand(const uint8_t *token, size_t length, uint8_t *out)
{
    size_t size = 0;
    for (size_t i = 0; i < length; i++) {
        bool is_escape = token[i] == '~' && i + 1 < length;
        i += is_escape;
        out[size++] = is_escape ? (token[i] == '1' ? '/' : '~') : token[i];
    }
    return size;
}

/* Searches for a name in an object by `pergidau_json_next`. */
static void find_name(const uint8_t *bytes, size_t length, size_t max_depth, const uint8_t *name,
                      size_t name_length)
{
    static uint8_t found[1 << 16], token[1 << 16];
    struct pergidau_json_item item;
    bool is_token = below(2);
    size_t from = (size_t)((const uint8_t *)memchr(bytes, '{', length) - bytes) + 1, out, size = 0;
    size_t token_length = is_token ? token_by_hand(name, name_length, token) : name_length;
    enum pergidau_code code = pergidau_json_member(bytes, length, max_depth, name, name_length, is_token, &out);
    while (pergidau_json_next(bytes + from, length - from, max_depth, &item) == PERGIDAU_DONE) {
        string_by_hand(bytes + from + item.span.offset, item.span.length, found, &size);
        from += item.span.offset + item.span.length;
        if (size == token_length && memcmp(found, is_token ? token : name, size) == 0) {
            HOLDS(code == PERGIDAU_DONE && out == from);
            return;
        }
        HOLDS(pergidau_json_next(bytes + from, length - from, max_depth, &item) == PERGIDAU_DONE);
        from += item.span.offset + item.span.length;
    }
    HOLDS(code == PERGIDAU_END && out == 0);
}

/* Searches for members in the objects of a text: names that they have, and others. */
static void read_members(const uint8_t *bytes, size_t length)
{
    static uint8_t name[1 << 16];
    struct pergidau_json_item item;
    size_t max_depth = below(8), out, size = 0;
    if (pergidau_json_check(bytes, length, max_depth) != PERGIDAU_DONE) {
        HOLDS(pergidau_json_member(bytes, length, max_depth, bytes, below(length + 1), below(2), &out)
                  == PERGIDAU_DONE
              || out == 0);
        HOLDS(out <= length);
        return;
    }
    const uint8_t *from = bytes, *object = NULL, *end = bytes + length;
    while (pergidau_json_step(from, (size_t)(end - from), &item) == PERGIDAU_DONE) {
        from += item.span.offset;
        object = item.kind == PERGIDAU_JSON_BEGIN_OBJECT ? from : object;
        if (object != NULL && (item.kind == PERGIDAU_JSON_NAME || item.kind == PERGIDAU_JSON_STRING)) {
            string_by_hand(from, item.span.length, name, &size);
        }
        from += item.span.length;
        if (object != NULL) {
            find_name(object, (size_t)(end - object), max_depth, name, size);
        }
    }
}
