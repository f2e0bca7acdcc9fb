/* Random inputs of response heads, of field lines, and of heads and records whose end is found
 * incrementally, for `fuzz.c`. */
#ifndef HEADS_FUZZ_H
#define HEADS_FUZZ_H

/* ---- response heads, compared with a hand-written parser */

static bool is_digit(uint8_t byte)
{
    return byte >= '0' && byte <= '9';
}

/* A byte of a name (RFC 9110, section 5.6.2). */
static bool is_name(uint8_t byte)
{
    return byte != 0 && strchr("!#$%&'*+-.^_`|~0123456789abcdefghijklmnopqrstuvwxyz"
                               "ABCDEFGHIJKLMNOPQRSTUVWXYZ", byte) != NULL;
}

/* A byte of a reason and of a value (RFC 9112, sections 4 and 5). */
static bool is_value(uint8_t byte)
{
    return byte == '\t' || (byte >= ' ' && byte != 0x7f);
}

/* The result of the hand-written parser: a head with `fields` fields, an invalid byte at `at`, or an
 * incomplete head. */
struct by_hand {
    enum pergidau_code code;
    enum pergidau_http_head_error error;
    size_t at, fields, reason, reason_length;
    unsigned status;
};

enum due { LINE, REASON, FEED, START, NAME, VALUE, LAST, VERSION };

/* Parses byte by byte, from LINE on: the bytes of `form`, where 'd' is a digit; then a reason, the line
 * ending, and field lines; or only field lines, from START on. */
static struct by_hand response_by_hand(enum due due, const uint8_t *bytes, size_t length)
{
    static const char form[] = "HTTP/d.d ddd";
    struct by_hand made = {.code = PERGIDAU_INCOMPLETE};
    static const enum pergidau_http_head_error error_of[] = {
        [LINE] = PERGIDAU_HTTP_HEAD_ERROR_STATUS_CODE,
        [REASON] = PERGIDAU_HTTP_HEAD_ERROR_VALUE,
        [FEED] = PERGIDAU_HTTP_HEAD_ERROR_LINE_ENDING,
        [START] = PERGIDAU_HTTP_HEAD_ERROR_FIELD_NAME,
        [NAME] = PERGIDAU_HTTP_HEAD_ERROR_COLON,
        [VALUE] = PERGIDAU_HTTP_HEAD_ERROR_VALUE,
        [LAST] = PERGIDAU_HTTP_HEAD_ERROR_LINE_ENDING,
        [VERSION] = PERGIDAU_HTTP_HEAD_ERROR_VERSION,
    };
    for (size_t i = 0; i < length; i++) {
        uint8_t byte = bytes[i];
        bool goes = false;
        int part = due == LINE && i < 8 ? VERSION : (int)due;
        made.at = i;
        switch (due) {
        case LINE:
            if (i < sizeof form - 1) {
                goes = form[i] == 'd' ? is_digit(byte) : byte == (uint8_t)form[i];
                if (i > 8 && goes) {
                    made.status = made.status * 10 + (byte - (unsigned)'0');
                }
                break;
            }
            goes = byte == ' ' || byte == '\r';
            made.reason = byte == ' ' ? i + 1 : i;
            due = byte == ' ' ? REASON : FEED;
            break;
        case REASON:
        case VALUE:
            goes = is_value(byte) || byte == '\r';
            made.reason_length += due == REASON && byte != '\r';
            due = byte == '\r' ? FEED : due;
            break;
        case FEED:
            goes = byte == '\n';
            due = START;
            break;
        case START:
            goes = byte == '\r' || is_name(byte);
            made.fields += byte != '\r';
            due = byte == '\r' ? LAST : NAME;
            break;
        case NAME:
            goes = byte == ':' || is_name(byte);
            due = byte == ':' ? VALUE : NAME;
            break;
        case LAST:
        case VERSION:
            goes = byte == '\n';
            made.at = i + 1;
            made.code = PERGIDAU_DONE;
            break;
        }
        if (!goes) {
            made.code = PERGIDAU_INVALID;
            made.at = i;
            made.error = error_of[part];
        }
        if (made.code != PERGIDAU_INCOMPLETE) {
            return made;
        }
    }
    made.at = length;
    return made;
}

/* The fields are those of the bytes up to `length`. */
static void hold_fields(const uint8_t *bytes, size_t length, const struct pergidau_field *fields, size_t count)
{
    for (size_t i = 0; i < count; i++) {
        struct pergidau_span name = fields[i].name, value = fields[i].value;
        HOLDS(within(name, length) && within(value, length) && name.length > 0);
        HOLDS(bytes[name.offset + name.length] == ':');
        HOLDS(name.offset + name.length < value.offset);
        HOLDS(i == 0 || fields[i - 1].value.offset < name.offset);
    }
}

static void read_response(const uint8_t *bytes, size_t length)
{
    struct pergidau_http_response out, cut;
    struct by_hand want = response_by_hand(LINE, bytes, length);
    size_t count = below(6), size = count * sizeof(struct pergidau_field);
    /* The last entry ends where the room ends. */
    struct pergidau_field *fields =
        (struct pergidau_field *)(void *)(buffer_room + PAGES * page - size);
    enum pergidau_code code = pergidau_http_response_head(bytes, length, fields, count, &out);
    enum pergidau_code piece =
        pergidau_http_response_head_partial(bytes, length, fields, count, &cut);
    if (want.code != PERGIDAU_DONE) {
        HOLDS(code == PERGIDAU_INVALID && out.error_offset == want.at);
        HOLDS(piece == want.code && cut.error == want.error);
        HOLDS(out.error == (want.error ? want.error : PERGIDAU_HTTP_HEAD_ERROR_INCOMPLETE));
        HOLDS(cut.error_offset == (piece == PERGIDAU_INVALID ? want.at : 0));
        return;
    }
    HOLDS(piece == code && cut.fields == want.fields && out.fields == want.fields);
    HOLDS((code == PERGIDAU_BUFFER_TOO_SMALL) == (want.fields > count));
    if (code == PERGIDAU_BUFFER_TOO_SMALL) {
        HOLDS(want.fields <= MOST_FIELDS);
        count = want.fields;
        fields = (struct pergidau_field *)(void *)(buffer_room + PAGES * page
                                                   - count * sizeof *fields);
        code = pergidau_http_response_head(bytes, length, fields, count, &out);
    }
    HOLDS(code == PERGIDAU_DONE && out.length == want.at && out.status == want.status);
    HOLDS(out.major == bytes[5] - '0' && out.minor == bytes[7] - '0');
    HOLDS(out.reason.offset == want.reason && out.reason.length == want.reason_length);
    hold_fields(bytes, out.length, fields, out.fields);
}

/* Field lines, from a line of the input on. */
static void read_field_lines(const uint8_t *bytes, size_t length)
{
    const uint8_t *line = length > 0 && below(2) ? memchr(bytes, '\n', length) : NULL;
    size_t passed = line ? (size_t)(line - bytes) + 1 : 0, count = below(4), end = 0, have = 0;
    bytes += passed;
    length -= passed;
    struct by_hand want = response_by_hand(START, bytes, length);
    struct pergidau_http_fields out;
    for (bool is_exact = false;; is_exact = true) {
        /* The last entry ends where the room ends. */
        struct pergidau_field *fields = (struct pergidau_field *)(void *)(buffer_room + PAGES * page
                                                                          - count * sizeof *fields);
        enum pergidau_code code = pergidau_http_field_lines(bytes, length, fields, count, &out);
        bool is_done = want.code == PERGIDAU_DONE;
        HOLDS(code == (is_done && want.fields > count ? PERGIDAU_BUFFER_TOO_SMALL : want.code));
        HOLDS(out.fields == (is_done ? want.fields : 0));
        HOLDS(out.length == (code == PERGIDAU_DONE ? want.at : 0));
        HOLDS(out.error_offset == (code == PERGIDAU_INVALID ? want.at : 0) && out.error == want.error);
        if (code == PERGIDAU_DONE) {
            hold_fields(bytes, out.length, fields, out.fields);
        }
        if (is_exact || !is_done) {
            break;
        }
        HOLDS(want.fields <= MOST_FIELDS);
        count = want.fields;
    }
    struct pergidau_http_head_state state = {0};
    enum pergidau_code code = PERGIDAU_INCOMPLETE;
    for (bool is_last = false; code == PERGIDAU_INCOMPLETE && !is_last;) {
        have += have < length ? below(length - have + 1) : 0;
        is_last = have == length;
        code = pergidau_http_field_lines_extent(&state, bytes, have, &end);
    }
    HOLDS(code == want.code && end == (code == PERGIDAU_INCOMPLETE ? 0 : want.at));
}

/* ---- the ends of heads and of records, by successive calls and by one call */

static void read_head_extent(const uint8_t *bytes, size_t length)
{
    bool is_response = below(2) == 0;
    struct pergidau_http_head_state state = {0};
    struct pergidau_http_request head;
    struct pergidau_http_response response;
    struct pergidau_field fields[MOST_FIELDS];
    size_t out = 0, have = 0;
    enum pergidau_code code = PERGIDAU_INCOMPLETE;
    while (code == PERGIDAU_INCOMPLETE) {
        code = (is_response ? pergidau_http_response_head_extent : pergidau_http_head_extent)(
            &state, bytes, have, &out);
        HOLDS(code != PERGIDAU_INCOMPLETE || (out == 0 && state.passed == have));
        if (have == length) {
            break;
        }
        have += code == PERGIDAU_INCOMPLETE ? 1 + below(length - have) : 0;
    }
    HOLDS(state.passed <= have);
    if (is_response) {
        HOLDS(code == pergidau_http_response_head_partial(bytes, length, fields, MOST_FIELDS, &response));
        HOLDS(out == (code == PERGIDAU_DONE ? response.length : response.error_offset));
    } else {
        HOLDS(code == pergidau_http_head_partial(bytes, length, fields, MOST_FIELDS, &head));
        HOLDS(out == (code == PERGIDAU_DONE ? head.length : head.error_offset));
    }
}

static void read_record_extent(const uint8_t *bytes, size_t length)
{
    struct pergidau_csv_record_state state = {0};
    struct pergidau_csv_record_sizes out, record;
    struct pergidau_csv_dialect chosen = csv_dialect();
    const struct pergidau_csv_dialect *dialect = &chosen;
    size_t have = 0;
    enum pergidau_code code = pergidau_csv_record_extent(&state, bytes, 0, dialect, &out);
    while (code == PERGIDAU_INCOMPLETE && have < length) {
        HOLDS(out.length == 0 && state.passed == have);
        have += 1 + below(length - have);
        code = pergidau_csv_record_extent(&state, bytes, have, dialect, &out);
    }
    enum pergidau_code whole =
        pergidau_csv_record_partial(bytes, length, dialect, NULL, 0, NULL, 0, &record);
    HOLDS(code == (whole == PERGIDAU_BUFFER_TOO_SMALL ? PERGIDAU_DONE : whole));
    HOLDS(out.fields == record.fields && out.text == record.text);
    HOLDS(out.length == record.length && out.error_offset == record.error_offset);
}

#endif
