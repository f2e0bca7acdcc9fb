/* The lengths of bodies and fields by name on random heads, compared with hand-written ones, for
 * `fuzz.c`. */
#ifndef BODIES_FUZZ_H
#define BODIES_FUZZ_H

#include <ctype.h>
#include <strings.h>

#include "requests_fuzz.h"

static bool is_word(const uint8_t *bytes, struct pergidau_span at, const char *word)
{
    return at.length == strlen(word) && !strncasecmp((const char *)bytes + at.offset, word, at.length);
}

/* Takes the next element of a list, without the whitespace around it. Commas in quoted strings do not
 * end one if there may be such strings. Returns false at the end. */
static bool next_element(const uint8_t *bytes, struct pergidau_span *list, struct pergidau_span *element,
                         bool has_quotes)
{
    size_t end = list->offset + list->length, at = list->offset;
    bool quoted = false;
    if (list->length == SIZE_MAX) {
        return false;
    }
    while (at < end && (quoted || bytes[at] != ',')) {
        size_t step = quoted && bytes[at] == '\\' ? 2 : 1;
        quoted ^= has_quotes && bytes[at] == '"';
        at = end - at < step ? end : at + step;
    }
    *element = (struct pergidau_span){list->offset, at - list->offset};
    list->offset = at + (at < end);
    list->length = at < end ? end - at - 1 : SIZE_MAX;
    while (element->length > 0 && memchr(" \t", bytes[element->offset], 2)) {
        element->offset++;
        element->length--;
    }
    while (element->length > 0 && memchr(" \t", bytes[element->offset + element->length - 1], 2)) {
        element->length--;
    }
    return true;
}

/* The error of the Content-Length fields, or their number. */
static enum pergidau_http_error length_by_hand(const uint8_t *bytes, const struct pergidau_field *fields,
                                               size_t count, uint64_t *number)
{
    struct pergidau_span first = {0}, element;
    bool found = false;
    for (size_t i = 0; i < count; i++) {
        struct pergidau_span list = fields[i].value;
        while (is_word(bytes, fields[i].name, "content-length") && next_element(bytes, &list, &element, false)) {
            if (found && (element.length != first.length
                          || memcmp(bytes + element.offset, bytes + first.offset, first.length))) {
                return PERGIDAU_HTTP_ERROR_LENGTHS_DIFFER;
            }
            first = element;
            found = true;
        }
    }
    bool fits = true;
    for (size_t i = 0; i < first.length; i++) {
        if (!is_digit(bytes[first.offset + i])) {
            return PERGIDAU_HTTP_ERROR_LENGTH_NOT_A_NUMBER;
        }
        uint64_t digit = bytes[first.offset + i] - (unsigned)'0';
        fits = fits && *number <= (UINT64_MAX - digit) / 10;
        *number = fits ? *number * 10 + digit : 0;
    }
    return first.length == 0 ? PERGIDAU_HTTP_ERROR_LENGTH_NOT_A_NUMBER
        : !fits              ? PERGIDAU_HTTP_ERROR_LENGTH_TOO_LARGE
                             : PERGIDAU_HTTP_ERROR_NONE;
}

/* Whether the codings are valid and end with `chunked`, and whether one comes after a `chunked`,
 * possibly with parameters. */
static void codings_by_hand(const uint8_t *bytes, const struct pergidau_field *fields, size_t count,
                            bool *valid, bool *last, bool *followed)
{
    bool seen = false;
    *last = *followed = false;
    *valid = true;
    for (size_t i = 0; i < count; i++) {
        struct pergidau_span list = fields[i].value, element;
        while (is_word(bytes, fields[i].name, "transfer-encoding") && next_element(bytes, &list, &element, true)) {
            if (element.length == 0) {
                continue;
            }
            *valid &= is_coding(bytes, element);
            *followed |= seen;
            *last = is_word(bytes, element, "chunked");
            struct pergidau_span name = element;
            for (name.length = 0; name.length < element.length
                 && !memchr("; \t", bytes[name.offset + name.length], 3); name.length++) {
            }
            seen |= is_word(bytes, name, "chunked");
        }
    }
}

/* The rules of RFC 9112, sections 3.2, 6.1 and 6.3, for a request with these fields. */
static void body_by_hand(const uint8_t *bytes, const struct pergidau_http_request *head,
                         const struct pergidau_field *fields, struct pergidau_http_body *want)
{
    size_t hosts = 0, lengths = 0, codings = 0;
    bool valid, last, followed, has_host = true;
    for (size_t i = 0; i < head->fields; i++) {
        hosts += is_word(bytes, fields[i].name, "host");
        has_host &= !is_word(bytes, fields[i].name, "host") || is_host(bytes, fields[i].value);
        lengths += is_word(bytes, fields[i].name, "content-length");
        codings += is_word(bytes, fields[i].name, "transfer-encoding");
    }
    codings_by_hand(bytes, fields, head->fields, &valid, &last, &followed);
    *want = (struct pergidau_http_body){PERGIDAU_HTTP_BODY_NONE, PERGIDAU_HTTP_ERROR_NONE, 0};
    if (!is_target(bytes, head)) {
        want->error = PERGIDAU_HTTP_ERROR_INVALID_TARGET;
    } else if (hosts > 1) {
        want->error = PERGIDAU_HTTP_ERROR_MANY_HOSTS;
    } else if (hosts == 0 && head->major == 1 && head->minor >= 1) {
        want->error = PERGIDAU_HTTP_ERROR_MISSING_HOST;
    } else if (!has_host) {
        want->error = PERGIDAU_HTTP_ERROR_INVALID_HOST;
    } else if (codings > 0) {
        want->error = head->major == 0 || (head->major == 1 && head->minor == 0)
            ? PERGIDAU_HTTP_ERROR_CODING_BEFORE_VERSION
            : lengths > 0 ? PERGIDAU_HTTP_ERROR_LENGTH_AND_CODING
            : !valid      ? PERGIDAU_HTTP_ERROR_INVALID_CODING
            : followed    ? PERGIDAU_HTTP_ERROR_CHUNKED_NOT_LAST
            : last        ? PERGIDAU_HTTP_ERROR_NONE
                          : PERGIDAU_HTTP_ERROR_NOT_CHUNKED;
        want->kind = want->error ? PERGIDAU_HTTP_BODY_NONE : PERGIDAU_HTTP_BODY_CHUNKED;
    } else if (lengths > 0) {
        want->error = length_by_hand(bytes, fields, head->fields, &want->length);
        want->kind = want->error ? PERGIDAU_HTTP_BODY_NONE : PERGIDAU_HTTP_BODY_LENGTH;
        want->length = want->error ? 0 : want->length;
    }
}

/* Whether a Connection field has the option (RFC 9110, section 7.6.1). */
static bool has_option(const uint8_t *bytes, const struct pergidau_field *fields, size_t count, const char *option)
{
    for (size_t i = 0; i < count; i++) {
        struct pergidau_span list = fields[i].value, element;
        while (is_word(bytes, fields[i].name, "connection") && next_element(bytes, &list, &element, false)) {
            if (is_word(bytes, element, option)) {
                return true;
            }
        }
    }
    return false;
}

/* The framing of a request whose head was read: as without it, with what is rejected, and whether the
 * connection persists (RFC 9112, section 9.3). */
static void read_framing(const uint8_t *bytes, size_t length, const struct pergidau_http_request *head,
                         const struct pergidau_field *fields, const struct pergidau_http_body *want)
{
    struct pergidau_http_framing out;
    enum pergidau_code code = pergidau_http_request_framing(bytes, length, fields, MOST_FIELDS, head, &out);
    struct pergidau_span hosts[2] = {{0, 0}, {0, 0}}, at = {0, 0}, value = at;
    size_t count = 0;
    for (size_t i = 0; i < head->fields; i++) {
        if (is_word(bytes, fields[i].name, "host") && count < 2) {
            hosts[count++] = fields[i].name;
            value = fields[i].value;
        }
    }
    at = want->error == PERGIDAU_HTTP_ERROR_INVALID_TARGET ? head->target
        : want->error == PERGIDAU_HTTP_ERROR_MANY_HOSTS    ? hosts[1]
        : want->error == PERGIDAU_HTTP_ERROR_INVALID_HOST  ? value
                                                           : at;
    bool close = has_option(bytes, fields, head->fields, "close");
    bool keep = has_option(bytes, fields, head->fields, "keep-alive");
    bool later = head->major > 1 || (head->major == 1 && head->minor > 0);
    bool persists = !close && (later || (head->major == 1 && keep));
    HOLDS(code == (want->error ? PERGIDAU_INVALID : PERGIDAU_DONE));
    HOLDS(out.body.kind == want->kind && out.body.error == want->error && out.body.length == want->length);
    HOLDS(out.rejected.offset == at.offset && out.rejected.length == at.length);
    HOLDS(out.persists == (!want->error && persists));
}

static void read_body(const uint8_t *bytes, size_t length)
{
    struct pergidau_http_body out, want = {PERGIDAU_HTTP_BODY_NONE, PERGIDAU_HTTP_ERROR_HEAD, 0};
    struct pergidau_field fields[MOST_FIELDS];
    struct pergidau_http_request head;
    enum pergidau_code found = pergidau_http_head(bytes, length, fields, MOST_FIELDS, &head);
    enum pergidau_code code = pergidau_http_request_body(bytes, length, &out);
    if (found == PERGIDAU_BUFFER_TOO_SMALL) {
        return;
    }
    if (found == PERGIDAU_DONE) {
        body_by_hand(bytes, &head, fields, &want);
        read_framing(bytes, length, &head, fields, &want);
        for (size_t i = 0; i < head.fields; i++) {
            size_t index = 0, first = 0;
            struct pergidau_span name = fields[i].name;
            HOLDS(pergidau_http_field(bytes, length, fields, head.fields, bytes + name.offset,
                                      name.length, &index) == PERGIDAU_DONE);
            while (fields[first].name.length != name.length
                   || strncasecmp((const char *)bytes + fields[first].name.offset,
                                  (const char *)bytes + name.offset, name.length)) {
                first++;
            }
            HOLDS(index == first);
        }
    }
    HOLDS(code == (want.error ? PERGIDAU_INVALID : PERGIDAU_DONE));
    HOLDS(out.kind == want.kind && out.error == want.error && out.length == want.length);
}

#endif
