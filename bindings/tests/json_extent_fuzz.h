/* Compares the end of a JSON value in input that arrives in chunks with other functions, on random
 * bytes. Included by `fuzz.c`. */

/* Successive calls find the same end of a value as one call, and as the functions for complete
 * texts. */
static void read_value_extent(const uint8_t *bytes, size_t length)
{
    struct pergidau_json_value_state state = {0}, once = {0};
    uint8_t brackets[8], others[8];
    size_t depth = below(sizeof brackets + 1), end = 0, whole = 0, have = 0, found = 0;
    enum pergidau_code code = PERGIDAU_INCOMPLETE;
    enum pergidau_code all =
        pergidau_json_extent(&once, bytes, length, 0, others, depth, &whole);
    while (code == PERGIDAU_INCOMPLETE && have < length) {
        have += 1 + below(length - have);
        code = pergidau_json_extent(&state, bytes, have, 0, brackets, depth, &end);
    }
    HOLDS(code == all && end == whole && end <= length);
    /* The bytes up to the end are a text, and no text begins with those up to an error. */
    HOLDS((code == PERGIDAU_DONE) <= (pergidau_json_check(bytes, end, depth) == PERGIDAU_DONE));
    HOLDS(code == PERGIDAU_DONE || pergidau_json_check(bytes, length, depth) != PERGIDAU_DONE
          || (code == PERGIDAU_INCOMPLETE && bytes[length - 1] >= '0'));
    /* At the end of the input. */
    code = pergidau_json_extent(&state, bytes, length, 1, brackets, depth, &end);
    HOLDS(code == PERGIDAU_INVALID || code == PERGIDAU_TOO_DEEP || code == PERGIDAU_END
          || pergidau_json_check(bytes, end, depth) == PERGIDAU_DONE);
    if (code == PERGIDAU_DONE && bytes[0] > ' '
        && pergidau_json_value(bytes, length, depth, &found) == PERGIDAU_DONE) {
        HOLDS(found == end);
    }
}
