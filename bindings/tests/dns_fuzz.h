/* Random DNS messages, and a reader of names and records written by hand, for `fuzz.c`. */
#ifndef DNS_FUZZ_H
#define DNS_FUZZ_H

/* Why and where a part is invalid. */
struct dns_error {
    enum pergidau_dns_error error;
    size_t offset;
};

static const struct dns_error no_dns_error = {PERGIDAU_DNS_ERROR_NONE, 0};

/* Decompresses the name at an offset, label by label. */
static struct dns_error name_by_hand(const uint8_t *message, size_t length, size_t at, uint8_t *name,
                                     size_t *size, size_t *end)
{
    size_t used = 0, pointers = 0, first = at;
    *end = 0;
    for (;;) {
        if (at >= length) {
            return (struct dns_error){PERGIDAU_DNS_ERROR_INCOMPLETE, at};
        }
        size_t mark = message[at], left = length - at - 1;
        if (mark == 0) {
            name[used] = 0;
            *size = used + 1;
            *end = *end ? *end : at + 1;
            return no_dns_error;
        }
        if (mark >= 64 && mark < 192) {
            return (struct dns_error){PERGIDAU_DNS_ERROR_RESERVED, at};
        }
        if (left < (mark < 64 ? mark : 1)) {
            return (struct dns_error){PERGIDAU_DNS_ERROR_INCOMPLETE, at};
        }
        if (mark < 64) {
            if (used + 1 + mark > 254) {
                return (struct dns_error){PERGIDAU_DNS_ERROR_TOO_LONG, first};
            }
            memcpy(name + used, message + at, 1 + mark);
            used += 1 + mark;
            at += 1 + mark;
            continue;
        }
        size_t target = (mark - 192) * 256 + message[at + 1];
        if (target >= first) {
            return (struct dns_error){PERGIDAU_DNS_ERROR_NOT_PRIOR, at};
        }
        if (pointers++ == PERGIDAU_DNS_MAX_POINTERS) {
            return (struct dns_error){PERGIDAU_DNS_ERROR_TOO_MANY, at};
        }
        *end = *end ? *end : at + 2;
        first = at = target;
    }
}

/* A name from an offset to the end of the data. */
static struct dns_error last_name_by_hand(const uint8_t *message, size_t length, size_t at)
{
    uint8_t name[PERGIDAU_DNS_MAX_NAME];
    size_t size, end;
    struct dns_error found = name_by_hand(message, length, at, name, &size, &end);
    return found.error != PERGIDAU_DNS_ERROR_NONE || end == length
        ? found : (struct dns_error){PERGIDAU_DNS_ERROR_TRAILING, end};
}

/* Data of `size` bytes from an offset to the end. */
static struct dns_error sized_by_hand(size_t length, size_t at, size_t size)
{
    return length - at < size ? (struct dns_error){PERGIDAU_DNS_ERROR_INCOMPLETE, at}
        : length - at > size  ? (struct dns_error){PERGIDAU_DNS_ERROR_TRAILING, at + size}
                              : no_dns_error;
}

/* The data of a type and a class, from an offset to the end. */
static struct dns_error data_by_hand(const uint8_t *message, size_t length, size_t at, unsigned type,
                                     unsigned number)
{
    uint8_t name[PERGIDAU_DNS_MAX_NAME];
    size_t size, end, start = at;
    struct dns_error found;
    if (at == length && (number == 254 || number == 255)) {
        return no_dns_error;
    }
    switch (number == 1 || (type != 1 && type != 28 && type != 33) ? type : 0) {
    case 1:
        return sized_by_hand(length, at, 4);
    case 28:
        return sized_by_hand(length, at, 16);
    case 2:
    case 5:
    case 12:
        return last_name_by_hand(message, length, at);
    case 15:
    case 33:
        size = type == 15 ? 2 : 6;
        return length - at < size ? (struct dns_error){PERGIDAU_DNS_ERROR_INCOMPLETE, at}
                                  : last_name_by_hand(message, length, at + size);
    case 16:
        while (at < length && message[at] < length - at) {
            at += 1u + message[at];
        }
        return at == start || at < length ? (struct dns_error){PERGIDAU_DNS_ERROR_INCOMPLETE, at}
                                          : no_dns_error;
    case 6:
        for (int i = 0; i < 2; i++) {
            found = name_by_hand(message, length, at, name, &size, &end);
            if (found.error != PERGIDAU_DNS_ERROR_NONE) {
                return found;
            }
            at = end;
        }
        return sized_by_hand(length, at, 20);
    default:
        return no_dns_error;
    }
}

static bool is_fault(struct pergidau_dns_fault fault, struct dns_error error)
{
    return fault.error == error.error && fault.offset == error.offset;
}

static unsigned pair_at(const uint8_t *bytes)
{
    return bytes[0] * 256u + bytes[1];
}

/* The name at an offset is that of the reader by hand, in a buffer that may be too small. Returns its
 * end, or 0. */
static size_t read_name(const uint8_t *bytes, size_t length, size_t at, struct dns_error *error)
{
    uint8_t name[PERGIDAU_DNS_MAX_NAME];
    size_t size = 0, end = 0;
    *error = name_by_hand(bytes, length, at, name, &size, &end);
    bool is_name = error->error == PERGIDAU_DNS_ERROR_NONE;
    size_t room = below(4) ? PERGIDAU_DNS_MAX_NAME : below(PERGIDAU_DNS_MAX_NAME);
    uint8_t *text = memset(buffer(room), 0xab, room);
    struct pergidau_dns_name out;
    enum pergidau_code code = pergidau_dns_name_at(bytes, length, at, text, room, &out);
    HOLDS(code == (!is_name ? PERGIDAU_INVALID : size > room ? PERGIDAU_BUFFER_TOO_SMALL : PERGIDAU_DONE));
    HOLDS(out.length == (is_name ? size : 0) && out.end == (is_name ? end : 0));
    HOLDS(is_fault(out.fault, *error));
    size_t filled = code == PERGIDAU_DONE ? size : 0;
    HOLDS(!memcmp(text, name, filled));
    for (size_t i = filled; i < room; i++) {
        HOLDS(text[i] == 0xab);
    }
    return is_name ? end : 0;
}

/* So are the question and the record at an offset. Returns the end of the record, or 0. */
static size_t read_entry(const uint8_t *bytes, size_t length, size_t at)
{
    struct dns_error error;
    struct pergidau_dns_question question;
    struct pergidau_dns_record record;
    size_t end = read_name(bytes, length, at, &error);
    enum pergidau_code code = pergidau_dns_question_at(bytes, length, at, &question);
    bool is_question = end && length - end >= 4, is_record = end && length - end >= 10;
    if (is_question) {
        HOLDS(code == PERGIDAU_DONE && question.name_end == end && question.end == end + 4);
        HOLDS(question.record_type == pair_at(bytes + end) && is_fault(question.fault, no_dns_error));
        HOLDS(question.record_class == pair_at(bytes + end + 2));
    } else {
        struct dns_error cut = {PERGIDAU_DNS_ERROR_INCOMPLETE, end};
        HOLDS(code == PERGIDAU_INVALID && is_fault(question.fault, end ? cut : error));
        HOLDS(question.name_end + question.end + question.record_type + question.record_class == 0);
    }
    code = pergidau_dns_record_at(bytes, length, at, &record);
    size_t start = end + 10, size = is_record ? pair_at(bytes + end + 8) : 0;
    if (end && !is_record) {
        error = (struct dns_error){PERGIDAU_DNS_ERROR_INCOMPLETE, end};
    } else if (end && length - start < size) {
        error = (struct dns_error){PERGIDAU_DNS_ERROR_INCOMPLETE, start};
    } else if (end) {
        error = data_by_hand(bytes, start + size, start, pair_at(bytes + end), pair_at(bytes + end + 2));
    }
    HOLDS(is_fault(record.fault, error));
    if (error.error != PERGIDAU_DNS_ERROR_NONE) {
        HOLDS(code == PERGIDAU_INVALID && record.name_end + record.end == 0);
        HOLDS(record.record_type + record.record_class + record.time_to_live == 0);
        HOLDS(record.span.offset + record.span.length == 0);
        return 0;
    }
    HOLDS(code == PERGIDAU_DONE && record.name_end == end && record.end == start + size);
    HOLDS(record.span.offset == start && record.span.length == size);
    HOLDS(record.record_type == pair_at(bytes + end) && record.record_class == pair_at(bytes + end + 2));
    HOLDS(record.time_to_live == pair_at(bytes + end + 4) * 65536u + pair_at(bytes + end + 6));
    return record.end;
}

/* Appends a name: labels, and the root or a pointer to an earlier byte, mostly to the start of a name. */
static size_t put_dns_name(uint8_t *bytes, size_t length, size_t *starts, size_t *count)
{
    size_t first = length;
    for (size_t labels = below(8) ? below(4) : below(128); labels > 0; labels--) {
        size_t size = below(8) ? 1 + below(5) : 1 + below(63);
        bytes[length++] = (uint8_t)size;
        memset(bytes + length, (int)('a' + below(26)), size);
        length += size;
    }
    size_t target = *count && below(8) ? starts[below(*count)] : below(length + 1);
    if (below(2)) {
        bytes[length++] = 0;
    } else {
        bytes[length++] = (uint8_t)(0xc0 | target >> 8);
        bytes[length++] = (uint8_t)target;
    }
    starts[(*count)++] = first;
    return length;
}

/* Appends a record with data that mostly are of its type, and stores its start. */
static size_t put_dns_record(uint8_t *bytes, size_t length, size_t *starts, size_t *count)
{
    static const uint8_t types[] = {1, 2, 5, 6, 12, 15, 16, 28, 33, 41};
    static const uint8_t classes[] = {1, 1, 1, 3, 254, 255};
    uint8_t type = types[below(sizeof types)];
    length = put_dns_name(bytes, length, starts, count);
    memset(bytes + length, 0, 10);
    bytes[length + 1] = type;
    bytes[length + 3] = classes[below(sizeof classes)];
    bytes[length + 4 + below(4)] = (uint8_t)random_number();
    size_t fields = length, names = type == 6 ? 2 : type == 1 || type == 16 || type >= 28 ? 0 : 1;
    length += 10;
    size_t front = type == 15 ? 2 : type == 1 ? 4 : type == 28 ? 16 : type == 33 ? 6 : 0;
    for (names += type == 33; front > 0; front--) {
        bytes[length++] = (uint8_t)random_number();
    }
    for (; names > 0 && below(16); names--) {
        length = put_dns_name(bytes, length, starts, count);
    }
    for (size_t strings = type == 16 ? below(4) : 0; strings > 0; strings--) {
        size_t size = below(10);
        bytes[length] = (uint8_t)size;
        memset(bytes + length + 1, 'x', size);
        length += 1 + size;
    }
    for (size_t more = type == 6 ? 20 : 0; more > 0; more--) {
        bytes[length++] = (uint8_t)more;
    }
    size_t size = length - fields - 10 + (below(8) ? 0 : below(3)) - (below(8) ? 0 : below(2));
    bytes[fields + 8] = (uint8_t)(size >> 8);
    bytes[fields + 9] = (uint8_t)size;
    return length;
}

/* The entries of the input, and of a message of records that replaces it, by both readers. */
static void read_dns(const uint8_t *bytes, size_t length)
{
    /* No record is longer than three names. */
    enum { MOST = 1000, RECORD = 3 * 128 * 64 };
    static uint8_t made[MOST + RECORD];
    size_t starts[512], count = 0, size = 12, at, next;
    for (size_t i = 0; i < 3; i++) {
        read_entry(bytes, length, below(length + 2));
    }
    for (size_t i = 0; i < size; i++) {
        made[i] = (uint8_t)random_number();
    }
    while (size < MOST && count < 500) {
        size = put_dns_record(made, size, starts, &count);
    }
    size = size > PAGES * page ? PAGES * page : below(4) ? size : below(size + 1);
    for (size_t turns = below(2) ? below(4) : 0; turns > 0 && size > 0; turns--) {
        made[below(size)] = (uint8_t)random_number();
    }
    bytes = memcpy(input_room + PAGES * page - size, made, size);
    length = size;
    for (at = 12; (next = read_entry(bytes, length, at)) != 0; at = next) {
    }
    for (size_t i = 0; i < 8; i++) {
        read_entry(bytes, length, below(2) ? starts[below(count)] : below(length + 2));
    }
    struct pergidau_dns_header header;
    enum pergidau_code code = pergidau_dns_message_header(bytes, length, &header);
    HOLDS(code == (length < 12 ? PERGIDAU_INVALID : PERGIDAU_DONE));
    if (length >= 12) {
        HOLDS(header.id == pair_at(bytes) && header.question_count == pair_at(bytes + 4));
        HOLDS(header.answer_count == pair_at(bytes + 6) && header.authority_count == pair_at(bytes + 8));
        HOLDS(header.additional_count == pair_at(bytes + 10));
        HOLDS(pair_at(bytes + 2)
              == (header.is_response * 32768u + header.opcode * 2048u + header.is_authoritative * 1024u
                  + header.is_truncated * 512u + header.recursion_desired * 256u
                  + header.recursion_available * 128u + header.reserved * 16u + header.response_code));
    }
}

#endif
