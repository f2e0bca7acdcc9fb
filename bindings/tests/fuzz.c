/* Random inputs next to pages that cannot be read: `fuzz INPUTS [SEED]`. A read before or after an
 * input, or a write past a buffer, crashes the program. The results are checked for the properties
 * that callers rely on. Exits with 1 if one does not hold. */
#include <stdbool.h>
#include <stdio.h>
#include <stdlib.h>
#include <string.h>
#include <unistd.h>

#include "inputs.h"
#include "pergidau.h"

enum { MOST_FIELDS = 64 };

static void fail(const char *what, const uint8_t *bytes, size_t length)
{
    printf("%s, of %zu bytes:", what, length);
    for (size_t i = 0; i < length; i++) {
        printf(" %02x", bytes[i]);
    }
    printf("\n");
    exit(1);
}

#define HOLDS(test) ((test) ? (void)0 : fail(#test, bytes, length))

static bool within(struct pergidau_span place, size_t length)
{
    return place.offset <= length && place.length <= length - place.offset;
}

static void read_formula(const uint8_t *bytes, size_t length)
{
    struct pergidau_number out;
    enum pergidau_code code = pergidau_calc_value(bytes, length, &out);
    HOLDS(code == PERGIDAU_DONE || code == PERGIDAU_INVALID || code == PERGIDAU_INVALID_UTF8);
    HOLDS(out.error_offset <= length);
    HOLDS(code == PERGIDAU_DONE || out.value == 0);
}

static void read_pair(const uint8_t *bytes, size_t length)
{
    struct pergidau_pair out;
    if (pergidau_pair_line(bytes, length, &out) == PERGIDAU_DONE) {
        HOLDS(within(out.key, length) && within(out.value, length));
        HOLDS(out.key.offset == 0 && out.key.length > 0);
        HOLDS(bytes[out.key.length] == '=' && out.value.offset == out.key.length + 1);
        HOLDS(out.value.length == 0 || !memchr(bytes + out.value.offset, '\n', out.value.length));
        HOLDS(length - out.value.offset - out.value.length <= 1);
    } else {
        HOLDS(out.error_offset <= length);
    }
}

static void read_json(const uint8_t *bytes, size_t length)
{
    size_t max_depth = below(8), found;
    enum pergidau_code check = pergidau_json_check(bytes, length, max_depth);
    enum pergidau_code value = pergidau_json_value(bytes, length, max_depth, &found);
    HOLDS(found <= length);
    HOLDS((value == PERGIDAU_DONE) == (found > 0));
    if (value == PERGIDAU_DONE && check != PERGIDAU_INVALID_UTF8) {
        /* The value is a JSON text, and so is the input if and only if only whitespace follows. */
        HOLDS(pergidau_json_check(bytes, found, max_depth) == PERGIDAU_DONE);
        size_t end = found;
        while (end < length && memchr(" \t\r\n", bytes[end], 4)) {
            end++;
        }
        HOLDS((check == PERGIDAU_DONE) == (end == length));
    }
}

/* Counts the values up to a closing bracket or the end of the input. Walks through the values inside
 * them, too. */
static size_t walk(const uint8_t *bytes, size_t length, size_t max_depth)
{
    struct pergidau_json_item item;
    size_t count = 0;
    enum pergidau_code code;
    while ((code = pergidau_json_next(bytes, length, max_depth, &item)) == PERGIDAU_DONE) {
        HOLDS(within(item.span, length) && item.span.length > 0);
        HOLDS(item.kind <= PERGIDAU_JSON_OBJECT);
        const uint8_t *value = bytes + item.span.offset;
        count++;
        if (item.kind == PERGIDAU_JSON_ARRAY || item.kind == PERGIDAU_JSON_OBJECT) {
            HOLDS(max_depth > 0);
            size_t inside = walk(value + 1, item.span.length - 1, max_depth - 1);
            HOLDS(item.kind == PERGIDAU_JSON_ARRAY || inside % 2 == 0);
        }
        length -= item.span.offset + item.span.length;
        bytes = value + item.span.length;
    }
    HOLDS(code == PERGIDAU_END);
    return count;
}

static void read_values(const uint8_t *bytes, size_t length)
{
    struct pergidau_json_item item;
    size_t max_depth = below(8), found;
    enum pergidau_code code = pergidau_json_next(bytes, length, max_depth, &item);
    HOLDS(code == PERGIDAU_DONE || code == PERGIDAU_INVALID || code == PERGIDAU_END);
    if (code == PERGIDAU_DONE) {
        HOLDS(within(item.span, length));
        size_t behind = length - item.span.offset;
        HOLDS(pergidau_json_value(bytes + item.span.offset, behind, max_depth, &found)
              == PERGIDAU_DONE);
        HOLDS(found == item.span.length);
        for (size_t i = 0; i < item.span.offset; i++) {
            HOLDS(memchr(" \t\r\n,:", bytes[i], 6));
        }
    } else {
        HOLDS(item.span.length == 0);
    }
    if (pergidau_json_check(bytes, length, max_depth) == PERGIDAU_DONE) {
        HOLDS(walk(bytes, length, max_depth) == 1);
    }
}

/* Returns a buffer of `size` bytes, filled with 0xab, that ends where the second room ends. */
static void *buffer(size_t size)
{
    return memset(buffer_room + PAGES * page - size, 0xab, size);
}

static void read_document(const uint8_t *bytes, size_t length)
{
    struct pergidau_pair_sizes out;
    size_t most = below(24), count = below(4);
    size_t size = count * sizeof(struct pergidau_pair_entry);
    struct pergidau_pair_entry *entries = buffer(size);
    uint8_t *text = (uint8_t *)memset((uint8_t *)entries - most, 0xab, most);
    enum pergidau_code code =
        pergidau_pair_document(bytes, length, text, most, entries, count, &out);
    if (code == PERGIDAU_BUFFER_TOO_SMALL) {
        HOLDS(out.entries > count || out.text > most);
        for (size_t i = 0; i < most + size; i++) {
            HOLDS(text[i] == 0xab);
        }
        HOLDS(out.entries <= length && out.text <= length);
        most = out.text;
        count = out.entries;
        entries = malloc(count * sizeof *entries);
        text = (uint8_t *)buffer(most);
        HOLDS(entries != NULL);
        code = pergidau_pair_document(bytes, length, text, most, entries, count, &out);
        HOLDS(code == PERGIDAU_DONE && out.entries == count && out.text == most);
        free(entries);
    } else if (code == PERGIDAU_DONE) {
        size_t sum = 0;
        for (size_t i = 0; i < out.entries; i++) {
            HOLDS(entries[i].key.offset == sum && within(entries[i].key, out.text));
            sum += entries[i].key.length;
            HOLDS(entries[i].value.offset == sum && within(entries[i].value, out.text));
            sum += entries[i].value.length;
        }
        HOLDS(sum == out.text);
        HOLDS(out.entries == 0 || entries[0].key.length == 0);
    } else {
        HOLDS(code == PERGIDAU_INVALID && out.error_offset <= length);
        /* The input up to the error is a document. */
        HOLDS(pergidau_pair_document(bytes, out.error_offset, NULL, 0, NULL, 0, &out)
              != PERGIDAU_INVALID);
    }
}

static void read_head(const uint8_t *bytes, size_t length)
{
    struct pergidau_http_request out, cut;
    size_t count = below(6);
    size_t size = count * sizeof(struct pergidau_field);
    /* The last entry ends where the room ends. */
    uint8_t *start = buffer_room + PAGES * page - size;
    struct pergidau_field *fields = (struct pergidau_field *)(void *)start;
    enum pergidau_code code = pergidau_http_head(bytes, length, fields, count, &out);
    if (code == PERGIDAU_BUFFER_TOO_SMALL) {
        HOLDS(out.fields > count);
        HOLDS(out.fields <= MOST_FIELDS);
        count = out.fields;
        fields = (struct pergidau_field *)(void *)(buffer_room + PAGES * page
                                                   - count * sizeof *fields);
        code = pergidau_http_head(bytes, length, fields, count, &out);
        HOLDS(code == PERGIDAU_DONE && out.fields == count);
    }
    if (code == PERGIDAU_DONE) {
        HOLDS(out.length >= 4 && out.length <= length);
        HOLDS(!memcmp(bytes + out.length - 2, "\r\n", 2));
        HOLDS(within(out.method, out.length) && within(out.target, out.length));
        HOLDS(bytes[out.method.length] == ' ' && out.major < 10 && out.minor < 10);
        for (size_t i = 0; i < out.fields; i++) {
            struct pergidau_span name = fields[i].name, value = fields[i].value;
            HOLDS(within(name, out.length) && within(value, out.length) && name.length > 0);
            HOLDS(bytes[name.offset + name.length] == ':');
            HOLDS(name.offset + name.length < value.offset);
            HOLDS(i == 0 || fields[i - 1].value.offset < name.offset);
        }
        /* Each proper prefix of a head is an incomplete head. */
        size_t end = below(out.length);
        HOLDS(pergidau_http_head(bytes, end, fields, count, &cut) == PERGIDAU_INVALID);
        HOLDS(pergidau_http_head_partial(bytes, end, fields, count, &cut)
              == PERGIDAU_INCOMPLETE);
        HOLDS(pergidau_http_head(bytes, out.length, fields, count, &cut) == PERGIDAU_DONE);
        HOLDS(cut.length == out.length && cut.fields == out.fields);
    } else {
        HOLDS(code == PERGIDAU_INVALID);
        code = pergidau_http_head_partial(bytes, length, fields, count, &cut);
        HOLDS(code == PERGIDAU_INVALID || code == PERGIDAU_INCOMPLETE);
        HOLDS(out.error_offset == (code == PERGIDAU_INVALID ? cut.error_offset : length));
        /* The input up to the error is an incomplete head; with the next byte it is invalid. */
        HOLDS(pergidau_http_head_partial(bytes, out.error_offset, fields, count, &cut)
              == PERGIDAU_INCOMPLETE);
        HOLDS(code == PERGIDAU_INCOMPLETE
              || pergidau_http_head_partial(bytes, out.error_offset + 1, fields, count, &cut)
                     == PERGIDAU_INVALID);
    }
}

/* A dialect of bytes that inputs have, most often the standard one. */
static struct pergidau_csv_dialect csv_dialect(void)
{
    static const char delimiters[] = ",,,;\ta\0", quotes[] = "\"\"\"'b";
    return (struct pergidau_csv_dialect){
        (uint8_t)delimiters[below(7)],
        (uint8_t)quotes[below(5)],
        (enum pergidau_csv_line_end)below(3),
    };
}

/* Whether the bytes start with a record after a line ending is appended, or a quote and a line
 * ending. */
static bool may_go_on(const uint8_t *bytes, size_t length,
                      const struct pergidau_csv_dialect *dialect)
{
    const char quote = (char)dialect->quote;
    const char ends[][4] = {"\n", "\r\n", {quote, '\n'}, {quote, '\r', '\n'}};
    struct pergidau_csv_record_sizes out;
    bool goes_on = false;
    uint8_t *more = malloc(length + 3);
    HOLDS(more != NULL);
    memcpy(more, bytes, length);
    for (size_t i = 0; i < sizeof ends / sizeof *ends; i++) {
        size_t size = strlen(ends[i]);
        memcpy(more + length, ends[i], size);
        goes_on = goes_on
            || pergidau_csv_record(more, length + size, dialect, NULL, 0, NULL, 0, &out)
                != PERGIDAU_INVALID;
    }
    free(more);
    return goes_on;
}

static void read_record(const uint8_t *bytes, size_t length)
{
    struct pergidau_csv_record_sizes out, cut;
    struct pergidau_csv_dialect chosen = csv_dialect();
    const struct pergidau_csv_dialect *dialect = &chosen;
    size_t most = below(24), count = below(4);
    size_t size = count * sizeof(struct pergidau_span);
    /* The entries follow the text, so that a write past the text is detected. */
    struct pergidau_span *places = buffer(size);
    uint8_t *text = (uint8_t *)memset((uint8_t *)places - most, 0xab, most);
    enum pergidau_code code =
        pergidau_csv_record(bytes, length, dialect, text, most, places, count, &out);
    if (code == PERGIDAU_BUFFER_TOO_SMALL) {
        HOLDS(out.fields > count || out.text > most);
        for (size_t i = 0; i < most + size; i++) {
            HOLDS(text[i] == 0xab);
        }
        HOLDS(out.fields <= length + 1 && out.text <= length);
        most = out.text;
        count = out.fields;
        places = malloc(count * sizeof *places);
        text = (uint8_t *)buffer(most);
        HOLDS(places != NULL);
        code = pergidau_csv_record(bytes, length, dialect, text, most, places, count, &out);
        HOLDS(code == PERGIDAU_DONE && out.fields == count && out.text == most);
        free(places);
    } else if (code == PERGIDAU_DONE) {
        size_t sum = 0;
        HOLDS(out.fields >= 1 && out.length >= 1 && out.length <= length);
        for (size_t i = 0; i < out.fields; i++) {
            HOLDS(places[i].offset == sum && within(places[i], out.text));
            sum += places[i].length;
        }
        HOLDS(sum == out.text);
        /* The record by itself gives the same result, and so does the partial function. */
        HOLDS(pergidau_csv_record(bytes, out.length, dialect, text, most, places, count, &cut)
              == PERGIDAU_DONE);
        HOLDS(cut.length == out.length && cut.fields == out.fields && cut.text == out.text);
        code = pergidau_csv_record_partial(bytes, length, dialect, text, most, places, count,
                                             &cut);
        HOLDS(code == PERGIDAU_DONE || (code == PERGIDAU_INCOMPLETE && out.length == length));
        HOLDS(code == PERGIDAU_INCOMPLETE || cut.length == out.length);
    } else {
        HOLDS(code == PERGIDAU_INVALID && out.error_offset <= length);
        HOLDS(may_go_on(bytes, out.error_offset, dialect));
        HOLDS(out.error_offset == length || !may_go_on(bytes, out.error_offset + 1, dialect));
        code = pergidau_csv_record_partial(bytes, length, dialect, text, most, places, count,
                                             &cut);
        HOLDS(code == (may_go_on(bytes, length, dialect) ? PERGIDAU_INCOMPLETE
                                                            : PERGIDAU_INVALID));
        HOLDS(cut.error_offset == (code == PERGIDAU_INVALID ? out.error_offset : 0));
    }
}

static bool is_rejected(enum pergidau_code code)
{
    return code == PERGIDAU_INVALID || code == PERGIDAU_OUT_OF_RANGE || code == PERGIDAU_TOO_DEEP;
}

static bool is_aggregate(enum pergidau_resp_kind kind)
{
    return kind == PERGIDAU_RESP_ARRAY || kind >= PERGIDAU_RESP_MAP;
}

static void read_reply(const uint8_t *bytes, size_t length)
{
    struct pergidau_resp_value out, part;
    size_t max_depth = below(4);
    uint32_t protocol = 2 + (uint32_t)below(2);
    enum pergidau_code code = pergidau_resp_reply(bytes, length, protocol, max_depth, &out);
    enum pergidau_code piece = pergidau_resp_reply_partial(bytes, length, protocol, max_depth, &part);
    if (code != PERGIDAU_DONE) {
        HOLDS(is_rejected(code) && out.error_offset <= length);
        if (piece == PERGIDAU_INCOMPLETE) {
            HOLDS(code == PERGIDAU_INVALID && out.error_offset == length);
            return;
        }
        HOLDS(piece == code && part.error_offset == out.error_offset && out.error_offset < length);
        /* The bytes before the error start a reply, and a deeper limit only moves the error. */
        size_t offset = out.error_offset;
        HOLDS(pergidau_resp_reply_partial(bytes, offset, protocol, max_depth, &part)
              == PERGIDAU_INCOMPLETE);
        piece = pergidau_resp_reply_partial(bytes, length, protocol, max_depth + 1, &part);
        HOLDS(code == PERGIDAU_TOO_DEEP ? !is_rejected(piece) || part.error_offset > offset
                                        : piece == code && part.error_offset == offset);
        return;
    }
    HOLDS(piece == PERGIDAU_DONE && part.length == out.length && part.kind == out.kind);
    HOLDS(out.error_offset == 0);
    HOLDS(out.length >= 3 && out.length <= length && within(out.span, out.length));
    HOLDS(!memcmp(bytes + out.length - 2, "\r\n", 2));
    HOLDS(is_aggregate(out.kind) == (strchr("*%~>|", bytes[0]) != NULL && bytes[1] != '-'));
    HOLDS(protocol == 3 || out.kind <= PERGIDAU_RESP_NULL_ARRAY);
    /* Its elements are consecutive replies that fill its span. */
    size_t at = out.span.offset, end = at + out.span.length;
    for (size_t i = 0; i < out.elements; i++) {
        HOLDS(pergidau_resp_reply(bytes + at, end - at, protocol, max_depth - 1, &part)
              == PERGIDAU_DONE);
        at += part.length;
    }
    HOLDS(!is_aggregate(out.kind) || at == end);
    /* Each proper prefix of a reply is an incomplete reply. */
    size_t cut = below(out.length);
    HOLDS(pergidau_resp_reply(bytes, cut, protocol, max_depth, &part) == PERGIDAU_INVALID);
    HOLDS(part.error_offset == cut);
    HOLDS(pergidau_resp_reply_partial(bytes, cut, protocol, max_depth, &part)
          == PERGIDAU_INCOMPLETE);
}

/* Successive calls find the same end of a reply as one call, and as the function that reads it. */
static void read_extent(const uint8_t *bytes, size_t length)
{
    struct pergidau_resp_reply_state state = {0}, once = {0};
    struct pergidau_resp_value reply;
    size_t end = 0, whole = 0, have = 0;
    uint32_t protocol = 2 + (uint32_t)below(2);
    enum pergidau_code code = PERGIDAU_INCOMPLETE;
    enum pergidau_code all = pergidau_resp_extent(&once, bytes, length, protocol, &whole);
    while (code == PERGIDAU_INCOMPLETE && have < length) {
        have += 1 + below(length - have);
        code = pergidau_resp_extent(&state, bytes, have, protocol, &end);
    }
    HOLDS(code == all && end == whole);
    enum pergidau_code read =
        pergidau_resp_reply_partial(bytes, length, protocol, PERGIDAU_MAX_DEPTH, &reply);
    HOLDS(read == all);
    HOLDS(end == (read == PERGIDAU_DONE ? reply.length : reply.error_offset));
}

/* Decodes a chunked body that arrives in chunks, and as a complete input, and compares the output and
 * the end of the body. */
static void read_chunked(const uint8_t *bytes, size_t length)
{
    uint8_t *given[2] = {malloc(length + 1), malloc(length + 1)};
    HOLDS(given[0] != NULL && given[1] != NULL);
    size_t counts[2] = {0, 0}, taken[2] = {0, 0};
    enum pergidau_code codes[2] = {PERGIDAU_DONE, PERGIDAU_DONE};
    for (int turn = 0; turn < 2; turn++) {
        struct pergidau_chunked_state state = {0};
        size_t have = turn == 0 ? length : below(length + 1);
        while (codes[turn] == PERGIDAU_DONE) {
            struct pergidau_chunked_step step;
            const uint8_t *left = bytes + taken[turn];
            size_t count = have - taken[turn];
            codes[turn] = pergidau_http_chunked(&state, left, count, &step);
            HOLDS(step.taken <= count && within(step.span, count));
            if (codes[turn] == PERGIDAU_DONE) {
                HOLDS(step.span.length > 0);
                HOLDS(step.span.offset + step.span.length == step.taken);
                memcpy(given[turn] + counts[turn], left + step.span.offset, step.span.length);
                counts[turn] += step.span.length;
            }
            taken[turn] += step.taken;
            HOLDS(codes[turn] != PERGIDAU_INCOMPLETE || taken[turn] == have);
            if (codes[turn] == PERGIDAU_INCOMPLETE && have < length) {
                have += 1 + below(length - have);
                codes[turn] = PERGIDAU_DONE;
            }
        }
    }
    HOLDS(codes[0] == codes[1] && taken[0] == taken[1] && counts[0] == counts[1]);
    HOLDS(!memcmp(given[0], given[1], counts[0]));
    free(given[0]);
    free(given[1]);
}

#include "heads_fuzz.h"
#include "bodies_fuzz.h"
#include "dns_fuzz.h"
#include "ini_fuzz.h"
#include "json_extent_fuzz.h"
#include "json_fuzz.h"
#include "json_lookup_fuzz.h"
#include "json_nodes_fuzz.h"
#include "json_pointer_fuzz.h"
#include "json_write_fuzz.h"
#include "resp_nodes_fuzz.h"
#include "toml_values_fuzz.h"
#include "toml_fuzz.h"
#include "writing_fuzz.h"

static void read_place(const uint8_t *bytes, size_t length)
{
    struct pergidau_position out;
    HOLDS(pergidau_text_position(bytes, length, below(length + 2), &out) == PERGIDAU_DONE);
    HOLDS(out.line >= 1 && out.column >= 1 && out.line + out.column <= length + 2);
}

static void read_all(const uint8_t *bytes, size_t length)
{
    read_formula(bytes, length);
    read_pair(bytes, length);
    read_json(bytes, length);
    read_values(bytes, length);
    read_tokens(bytes, length);
    read_nodes(bytes, length);
    read_value_extent(bytes, length);
    read_diagnosis(bytes, length);
    read_members(bytes, length);
    read_pointer(bytes, length);
    read_node_lookups(bytes, length);
    read_document(bytes, length);
    read_ini(bytes, length);
    read_head(bytes, length);
    read_response(bytes, length);
    read_head_extent(bytes, length);
    read_field_lines(bytes, length);
    read_record(bytes, length);
    read_record_extent(bytes, length);
    read_reply(bytes, length);
    read_extent(bytes, length);
    read_resp_nodes(bytes, length);
    read_chunked(bytes, length);
    read_body(bytes, length);
    read_toml(bytes, length);
    read_date_times(bytes, length);
    read_doubles(bytes, length);
    find_anywhere(bytes, length);
    read_place(bytes, length);
    write_slices(bytes, length);
    write_string(bytes, length);
    read_dns(bytes, length);
}

int main(int count, char **words)
{
    unsigned long inputs = count > 1 ? strtoul(words[1], NULL, 10) : 1000;
    generator = count > 2 ? strtoull(words[2], NULL, 10) : 0x9E3779B97F4A7C15u;
    page = (size_t)sysconf(_SC_PAGESIZE);
    input_room = room();
    buffer_room = room();
    uint8_t *made = malloc(page);
    if (made == NULL) {
        return 2;
    }
    for (unsigned long i = 0; i < inputs; i++) {
        size_t length = fill(made, page);
        uint8_t *start = i % 2 ? input_room : input_room + PAGES * page - length;
        memcpy(start, made, length);
        read_all(start, length);
    }
    free(made);
    printf("%lu inputs\n", inputs);
    return 0;
}
