/* Codings, hosts and request targets by their grammars, written by hand, for `bodies_fuzz.h`. Each
 * function takes bytes from `at` on, before `end`. */
#ifndef REQUESTS_FUZZ_H
#define REQUESTS_FUZZ_H

static bool is_one_of(uint8_t byte, const char *others)
{
    return (byte >= '0' && byte <= '9') || ((byte | 32) >= 'a' && (byte | 32) <= 'z')
        || (byte != 0 && strchr(others, byte));
}

static const char TOKENS[] = "!#$%&'*+-.^_`|~", NAMES[] = "-._~!$&'()*+,;=",
                  ADDRESSES[] = "-._~!$&'()*+,;=:", PATHS[] = "-._~!$&'()*+,;=:@/?";

/* Returns the end of the bytes that are letters, digits or one of the others. */
static size_t pass(const uint8_t *bytes, size_t at, size_t end, const char *others)
{
    while (at < end && is_one_of(bytes[at], others)) {
        at++;
    }
    return at;
}

static size_t pass_white(const uint8_t *bytes, size_t at, size_t end)
{
    while (at < end && (bytes[at] == ' ' || bytes[at] == '\t')) {
        at++;
    }
    return at;
}

/* Returns the end of the quoted string, or 0 if there is none. */
static size_t pass_quoted(const uint8_t *bytes, size_t at, size_t end)
{
    for (at++; at < end && bytes[at] != '"'; at++) {
        at += bytes[at] == '\\';
    }
    return at < end ? at + 1 : 0;
}

static bool is_coding(const uint8_t *bytes, struct pergidau_span it)
{
    size_t end = it.offset + it.length, at = pass(bytes, it.offset, end, TOKENS);
    if (at == it.offset) {
        return false;
    }
    while (at < end) {
        at = pass_white(bytes, at, end);
        if (at == end || bytes[at] != ';') {
            return false;
        }
        size_t name = pass_white(bytes, at + 1, end);
        at = pass(bytes, name, end, TOKENS);
        if (at == name) {
            return false;
        }
        at = pass_white(bytes, at, end);
        if (at == end || bytes[at] != '=') {
            return false;
        }
        size_t value = pass_white(bytes, at + 1, end);
        at = value < end && bytes[value] == '"' ? pass_quoted(bytes, value, end)
                                                : pass(bytes, value, end, TOKENS);
        if (at == 0 || at == value) {
            return false;
        }
    }
    return true;
}

/* Returns the end of bytes of a part of a URI; SIZE_MAX if a percent sign lacks digits. */
static size_t pass_encoded(const uint8_t *bytes, size_t at, size_t end, const char *others)
{
    while ((at = pass(bytes, at, end, others)) < end && bytes[at] == '%') {
        if (end - at < 3 || !isxdigit(bytes[at + 1]) || !isxdigit(bytes[at + 2])) {
            return SIZE_MAX;
        }
        at += 3;
    }
    return at;
}

/* Returns the end of a host; SIZE_MAX if it is invalid. */
static size_t pass_host(const uint8_t *bytes, size_t at, size_t end)
{
    if (at == end || bytes[at] != '[') {
        return pass_encoded(bytes, at, end, NAMES);
    }
    size_t behind = pass(bytes, at + 1, end, ADDRESSES);
    return behind == at + 1 || behind == end || bytes[behind] != ']' ? SIZE_MAX : behind + 1;
}

static size_t pass_port(const uint8_t *bytes, size_t at, size_t end)
{
    if (at < end && bytes[at] == ':') {
        for (at++; at < end && is_digit(bytes[at]); at++) {
        }
    }
    return at;
}

static bool is_host(const uint8_t *bytes, struct pergidau_span it)
{
    size_t end = it.offset + it.length, at = pass_host(bytes, it.offset, end);
    return at != SIZE_MAX && pass_port(bytes, at, end) == end;
}

static bool is_uri(const uint8_t *bytes, size_t at, size_t end)
{
    size_t colon = pass(bytes, at, end, "+-.");
    if (at == end || is_digit(bytes[at]) || !is_one_of(bytes[at], "") || colon == end
        || bytes[colon] != ':') {
        return false;
    }
    at = colon + 1;
    if (end - at >= 2 && bytes[at] == '/' && bytes[at + 1] == '/') {
        at = pass_host(bytes, at + 2, end);
        if (at == SIZE_MAX) {
            return false;
        }
        at = pass_port(bytes, at, end);
        if (at < end && bytes[at] != '/' && bytes[at] != '?') {
            return false;
        }
    }
    return pass_encoded(bytes, at, end, PATHS) == end;
}

static bool has_word(const uint8_t *bytes, struct pergidau_span it, const char *word)
{
    return it.length == strlen(word) && !memcmp(bytes + it.offset, word, it.length);
}

static bool is_target(const uint8_t *bytes, const struct pergidau_http_request *head)
{
    size_t at = head->target.offset, end = at + head->target.length;
    if (has_word(bytes, head->method, "CONNECT")) {
        size_t colon = pass_host(bytes, at, end);
        return colon != SIZE_MAX && colon < end && pass_port(bytes, colon, end) == end;
    }
    return (bytes[at] == '/' && pass_encoded(bytes, at, end, PATHS) == end)
        || is_uri(bytes, at, end)
        || (has_word(bytes, head->method, "OPTIONS") && has_word(bytes, head->target, "*"));
}

#endif
