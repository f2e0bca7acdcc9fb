/* Tables of DNS messages. Included by `rows.c`. */
#ifndef DNS_ROWS_H
#define DNS_ROWS_H

#define MESSAGE(text) (text), sizeof(text) - 1

enum { NAME_SPARE = 3, AT_NAMES = 20, AT_FOO = 40, AT_ARPA = 64, AT_ROOT = 92 };

/* The example of RFC 1035, section 4.1.4: F.ISI.ARPA, FOO.F.ISI.ARPA, ARPA and the root. */
static size_t names_of_standard(uint8_t *message)
{
    memset(message, 0xff, AT_ROOT);
    memcpy(message + AT_NAMES, "\1F\3ISI\4ARPA", 12);
    memcpy(message + AT_FOO, "\3FOO\xc0\x14", 6);
    memcpy(message + AT_ARPA, "\xc0\x1a", 2);
    message[AT_ROOT] = 0;
    return AT_ROOT + 1;
}

/* Reads a name into a buffer of each size: too small ones stay unchanged, as does what follows the
 * name. */
static void test_name(const char *row, const uint8_t *message, size_t length, size_t offset,
                      const char *name, size_t size, size_t end)
{
    uint8_t *bytes = copied((const char *)message, length);
    for (size_t room = 0; room <= size + NAME_SPARE; room++) {
        uint8_t *buffer = malloc(room ? room : 1);
        if (buffer == NULL) {
            exit(2);
        }
        memset(buffer, 0xab, room ? room : 1);
        size_t filled = room < size ? 0 : size;
        struct pergidau_dns_name out = {99, 99, {PERGIDAU_DNS_ERROR_TRAILING, 99}};
        same("dns_name_at", row, pergidau_dns_name_at(bytes, length, offset, buffer, room, &out),
             room < size ? PERGIDAU_BUFFER_TOO_SMALL : PERGIDAU_DONE);
        same("the length", row, (long long)out.length, (long long)size);
        same("the end", row, (long long)out.end, (long long)end);
        same("the error", row, out.fault.error, PERGIDAU_DNS_ERROR_NONE);
        same("the offset", row, (long long)out.fault.offset, 0);
        same("the name", row, memcmp(buffer, name, filled), 0);
        for (size_t at = filled; at < room; at++) {
            same("a byte after the name", row, buffer[at], 0xab);
        }
        free(buffer);
    }
    free(bytes);
}

/* There is no name: the buffer stays unchanged. */
static void test_no_name(const char *row, const uint8_t *message, size_t length, size_t offset,
                         enum pergidau_dns_error error, size_t place)
{
    uint8_t *bytes = copied((const char *)message, length), buffer[PERGIDAU_DNS_MAX_NAME];
    struct pergidau_dns_name out = {99, 99, {PERGIDAU_DNS_ERROR_TRAILING, 99}};
    memset(buffer, 0xab, sizeof buffer);
    same("dns_name_at", row,
         pergidau_dns_name_at(bytes, length, offset, buffer, sizeof buffer, &out), PERGIDAU_INVALID);
    same("the length", row, (long long)out.length, 0);
    same("the end", row, (long long)out.end, 0);
    same("the error", row, out.fault.error, error);
    same("the offset", row, (long long)out.fault.offset, (long long)place);
    for (size_t at = 0; at < sizeof buffer; at++) {
        same("a byte of the buffer", row, buffer[at], 0xab);
    }
    free(bytes);
}

static const struct {
    const char *row, *message;
    size_t length, offset;
    const char *name;
    size_t size, end;
} dns_names[] = {
    {"the root", MESSAGE("\0"), 0, MESSAGE("\0"), 1},
    {"one label", MESSAGE("\3com\0"), 0, MESSAGE("\3com\0"), 5},
    {"a suffix", MESSAGE("\1a\1b\0"), 2, MESSAGE("\1b\0"), 5},
    {"a pointer", MESSAGE("\3com\0\7example\xc0\0"), 5, MESSAGE("\7example\3com\0"), 15},
    {"a pointer to a pointer", MESSAGE("\0\xc0\0\xc0\1"), 3, MESSAGE("\0"), 5},
    {"a pointer into a label", MESSAGE("\3a\1b\0\1c\xc0\2"), 5, MESSAGE("\1c\1b\0"), 9},
    {"any bytes", MESSAGE("\4\0.\xff \0rest"), 0, MESSAGE("\4\0.\xff \0"), 6},
    {"the case of letters", MESSAGE("\3CoM\0"), 0, MESSAGE("\3CoM\0"), 5},
};

static const struct {
    const char *row, *message;
    size_t length, offset;
    enum pergidau_dns_error error;
    size_t place;
} no_names[] = {
    {"no bytes", MESSAGE(""), 0, PERGIDAU_DNS_ERROR_INCOMPLETE, 0},
    {"the end", MESSAGE("\0"), 1, PERGIDAU_DNS_ERROR_INCOMPLETE, 1},
    {"after the end", MESSAGE("\0"), 2, PERGIDAU_DNS_ERROR_INCOMPLETE, 2},
    {"the largest offset", MESSAGE("\0"), SIZE_MAX, PERGIDAU_DNS_ERROR_INCOMPLETE, SIZE_MAX},
    {"a cut label", MESSAGE("\3co"), 0, PERGIDAU_DNS_ERROR_INCOMPLETE, 0},
    {"no root", MESSAGE("\3com"), 0, PERGIDAU_DNS_ERROR_INCOMPLETE, 4},
    {"a cut second label", MESSAGE("\3com\2a"), 0, PERGIDAU_DNS_ERROR_INCOMPLETE, 4},
    {"a cut pointer", MESSAGE("\0\xc0"), 1, PERGIDAU_DNS_ERROR_INCOMPLETE, 1},
    {"a label of 64 bytes", MESSAGE("\1a\x40"), 0, PERGIDAU_DNS_ERROR_RESERVED, 2},
    {"the largest reserved type", MESSAGE("\xbf"), 0, PERGIDAU_DNS_ERROR_RESERVED, 0},
    {"a pointer to itself", MESSAGE("\xc0\0"), 0, PERGIDAU_DNS_ERROR_NOT_PRIOR, 0},
    {"a forward pointer", MESSAGE("\xc0\2\0"), 0, PERGIDAU_DNS_ERROR_NOT_PRIOR, 0},
    {"a pointer after the end", MESSAGE("\xff\xff"), 0, PERGIDAU_DNS_ERROR_NOT_PRIOR, 0},
    {"a pointer to its label", MESSAGE("\1a\xc0\0"), 0, PERGIDAU_DNS_ERROR_NOT_PRIOR, 2},
    {"a loop of two pointers", MESSAGE("\xc0\2\xc0\0"), 2, PERGIDAU_DNS_ERROR_NOT_PRIOR, 0},
    {"a loop through a label", MESSAGE("\1a\xc0\4\xc0\0"), 4, PERGIDAU_DNS_ERROR_NOT_PRIOR, 2},
    {"an invalid target", MESSAGE("\x80\xc0\0"), 1, PERGIDAU_DNS_ERROR_RESERVED, 0},
};

static void test_dns_names(void)
{
    uint8_t message[AT_ROOT + 1];
    size_t length = names_of_standard(message);
    test_name("F.ISI.ARPA", message, length, AT_NAMES, MESSAGE("\1F\3ISI\4ARPA\0"), AT_NAMES + 12);
    test_name("FOO.F.ISI.ARPA", message, length, AT_FOO, MESSAGE("\3FOO\1F\3ISI\4ARPA\0"), AT_FOO + 6);
    test_name("ARPA", message, length, AT_ARPA, MESSAGE("\4ARPA\0"), AT_ARPA + 2);
    test_name("the root", message, length, AT_ROOT, MESSAGE("\0"), AT_ROOT + 1);
    for (size_t i = 0; i < sizeof dns_names / sizeof *dns_names; i++) {
        test_name(dns_names[i].row, (const uint8_t *)dns_names[i].message, dns_names[i].length,
                  dns_names[i].offset, dns_names[i].name, dns_names[i].size, dns_names[i].end);
    }
    for (size_t i = 0; i < sizeof no_names / sizeof *no_names; i++) {
        test_no_name(no_names[i].row, (const uint8_t *)no_names[i].message, no_names[i].length,
                     no_names[i].offset, no_names[i].error, no_names[i].place);
    }
}

/* Appends labels of `size` bytes, `count` times, and returns the length. */
static size_t put_labels(uint8_t *message, size_t length, size_t size, size_t count)
{
    for (; count > 0; count--) {
        message[length++] = (uint8_t)size;
        memset(message + length, 'a', size);
        length += size;
    }
    return length;
}

/* The longest names, and names that are one label or one byte too long, also by their pointers. */
static void test_long_names(void)
{
    uint8_t message[512];
    memset(message, 0, sizeof message);
    size_t end = put_labels(message, put_labels(message, 0, 63, 3), 61, 1) + 1;
    test_name("255 bytes", message, end, 0, (const char *)message, 255, end);
    message[end] = 0xc0;
    message[end + 1] = 0;
    test_name("a pointer to 255 bytes", message, end + 2, end, (const char *)message, 255, end + 2);
    memcpy(message + end, "\1a\xc0\0", 4);
    test_no_name("257 bytes by a pointer", message, end + 4, end, PERGIDAU_DNS_ERROR_TOO_LONG, 0);
    end = put_labels(message, put_labels(message, 0, 63, 3), 62, 1) + 1;
    message[end - 1] = 0;
    test_no_name("256 bytes", message, end, 0, PERGIDAU_DNS_ERROR_TOO_LONG, 0);
    test_no_name("256 bytes without a root", message, end - 1, 0, PERGIDAU_DNS_ERROR_TOO_LONG, 0);
    test_name("a part of it", message, end, 64, (const char *)message + 64, 192, end);
    memset(message, 0, sizeof message);
    end = put_labels(message, 0, 1, 127) + 1;
    test_name("127 labels", message, end, 0, (const char *)message, 255, end);
    end = put_labels(message, 0, 1, 128) + 1;
    test_no_name("128 labels", message, end, 0, PERGIDAU_DNS_ERROR_TOO_LONG, 0);
    test_name("127 of 128 labels", message, end, 2, (const char *)message + 2, 255, end);
}

/* As many pointers as are followed, and one more. */
static void test_many_pointers(void)
{
    uint8_t message[512] = {0};
    size_t end = 1;
    for (size_t target = 0; end < 1 + 2 * 128; target = end, end += 2) {
        message[end] = (uint8_t)(0xc0 | target >> 8);
        message[end + 1] = (uint8_t)target;
    }
    test_name("127 pointers", message, end, end - 4, MESSAGE("\0"), end - 2);
    test_no_name("128 pointers", message, end, end - 2, PERGIDAU_DNS_ERROR_TOO_MANY, 1);
}

static const struct {
    const char *message;
    struct pergidau_dns_header header;
} dns_headers[] = {
    {"\0\0\0\0\0\0\0\0\0\0\0\0", {0}},
    {"\x12\x34\x81\x80\0\1\0\2\0\3\0\4",
     {.id = 0x1234, .is_response = true, .recursion_desired = true, .recursion_available = true,
      .question_count = 1, .answer_count = 2, .authority_count = 3, .additional_count = 4}},
    {"\xff\xfe\x7a\x55\1\0\2\0\3\0\4\0",
     {.id = 0xfffe, .opcode = 15, .is_truncated = true, .reserved = 5, .response_code = 5,
      .question_count = 256, .answer_count = 512, .authority_count = 768, .additional_count = 1024}},
    {"\0\1\x84\3\0\0\0\0\0\0\0\0",
     {.id = 1, .is_response = true, .is_authoritative = true, .response_code = 3}},
};

static void same_header(const char *row, const struct pergidau_dns_header *got,
                        const struct pergidau_dns_header *want)
{
    same("the identifier", row, got->id, want->id);
    same("the response", row, got->is_response, want->is_response);
    same("the opcode", row, got->opcode, want->opcode);
    same("authoritative", row, got->is_authoritative, want->is_authoritative);
    same("truncated", row, got->is_truncated, want->is_truncated);
    same("recursion desired", row, got->recursion_desired, want->recursion_desired);
    same("recursion available", row, got->recursion_available, want->recursion_available);
    same("the reserved bits", row, got->reserved, want->reserved);
    same("the response code", row, got->response_code, want->response_code);
    same("questions", row, got->question_count, want->question_count);
    same("answers", row, got->answer_count, want->answer_count);
    same("authority", row, got->authority_count, want->authority_count);
    same("additional", row, got->additional_count, want->additional_count);
}

static void test_dns_headers(void)
{
    const struct pergidau_dns_header none = {0};
    for (size_t i = 0; i < sizeof dns_headers / sizeof *dns_headers; i++) {
        for (size_t length = 0; length <= 12; length++) {
            uint8_t *bytes = copied(dns_headers[i].message, length);
            struct pergidau_dns_header out;
            memset(&out, 1, sizeof out);
            same("dns_message_header", "a header", pergidau_dns_message_header(bytes, length, &out),
                 length < 12 ? PERGIDAU_INVALID : PERGIDAU_DONE);
            same_header("a header", &out, length < 12 ? &none : &dns_headers[i].header);
            free(bytes);
        }
    }
}

/* A question after one byte; then each shorter message. */
static void test_dns_questions(void)
{
    static const char message[] = "?\1a\xc0\4\0\x0f\1\xff\3net\0\0\x0f\1\xff";
    struct pergidau_dns_question out;
    for (size_t length = 0; length < sizeof message; length++) {
        uint8_t *bytes = copied(message, length);
        bool done = length >= 18;
        memset(&out, 1, sizeof out);
        same("dns_question_at", "MX", pergidau_dns_question_at(bytes, length, 9, &out),
             done ? PERGIDAU_DONE : PERGIDAU_INVALID);
        size_t place = length < 9 ? 9 : length < 13 ? 9 : length < 14 ? 13 : 14;
        same("the end of the name", "MX", (long long)out.name_end, done ? 14 : 0);
        same("the type", "MX", out.record_type, done ? 15 : 0);
        same("the class", "MX", out.record_class, done ? 511 : 0);
        same("the end", "MX", (long long)out.end, done ? 18 : 0);
        same("the error", "MX", out.fault.error,
             done ? PERGIDAU_DNS_ERROR_NONE : PERGIDAU_DNS_ERROR_INCOMPLETE);
        same("the offset", "MX", (long long)out.fault.offset, done ? 0 : (long long)place);
        free(bytes);
    }
    same("a reserved label", "a question",
         pergidau_dns_question_at((const uint8_t *)message, sizeof message - 1, 3, &out),
         PERGIDAU_INVALID);
    same("the error", "a question", out.fault.error, PERGIDAU_DNS_ERROR_NOT_PRIOR);
    same("the offset", "a question", (long long)out.fault.offset, 3);
}

/* A type, a class and data after the name `a.` at offset 0 and a pointer to it, and the error. The
 * offset of an error is counted from the start of the data. */
static const struct {
    const char *row;
    uint16_t type, of_class;
    const char *data;
    size_t size;
    enum pergidau_dns_error error;
    size_t place;
} dns_records[] = {
    {"A", 1, 1, MESSAGE("\xc0\0\2\1"), PERGIDAU_DNS_ERROR_NONE, 0},
    {"A of three bytes", 1, 1, MESSAGE("\xc0\0\2"), PERGIDAU_DNS_ERROR_INCOMPLETE, 0},
    {"A of five bytes", 1, 1, MESSAGE("\xc0\0\2\1\0"), PERGIDAU_DNS_ERROR_TRAILING, 4},
    {"A of another class", 1, 3, MESSAGE("abcde"), PERGIDAU_DNS_ERROR_NONE, 0},
    {"A without data", 1, 1, MESSAGE(""), PERGIDAU_DNS_ERROR_INCOMPLETE, 0},
    {"A without data, of any class", 1, 255, MESSAGE(""), PERGIDAU_DNS_ERROR_NONE, 0},
    {"AAAA", 28, 1, MESSAGE("\x20\1\x0d\xb8\0\0\0\0\0\0\0\0\0\0\0\1"), PERGIDAU_DNS_ERROR_NONE, 0},
    {"AAAA of four bytes", 28, 1, MESSAGE("\x20\1\x0d\xb8"), PERGIDAU_DNS_ERROR_INCOMPLETE, 0},
    {"NS", 2, 1, MESSAGE("\2ns\xc0\0"), PERGIDAU_DNS_ERROR_NONE, 0},
    {"NS and a byte", 2, 1, MESSAGE("\2ns\xc0\0\0"), PERGIDAU_DNS_ERROR_TRAILING, 5},
    {"NS without data", 2, 1, MESSAGE(""), PERGIDAU_DNS_ERROR_INCOMPLETE, 0},
    {"NS without data, of no class", 2, 254, MESSAGE(""), PERGIDAU_DNS_ERROR_NONE, 0},
    {"CNAME", 5, 3, MESSAGE("\1b\0"), PERGIDAU_DNS_ERROR_NONE, 0},
    {"CNAME that is cut", 5, 1, MESSAGE("\1b"), PERGIDAU_DNS_ERROR_INCOMPLETE, 2},
    {"PTR", 12, 1, MESSAGE("\xc0\3"), PERGIDAU_DNS_ERROR_NONE, 0},
    {"PTR to itself", 12, 1, MESSAGE("\xc0\x0f"), PERGIDAU_DNS_ERROR_NOT_PRIOR, 0},
    {"MX", 15, 1, MESSAGE("\0\x0a\2mx\xc0\0"), PERGIDAU_DNS_ERROR_NONE, 0},
    {"MX of one byte", 15, 1, MESSAGE("\0"), PERGIDAU_DNS_ERROR_INCOMPLETE, 0},
    {"MX without a name", 15, 1, MESSAGE("\0\x0a"), PERGIDAU_DNS_ERROR_INCOMPLETE, 2},
    {"MX and a byte", 15, 1, MESSAGE("\0\x0a\0\0"), PERGIDAU_DNS_ERROR_TRAILING, 3},
    {"TXT", 16, 1, MESSAGE("\3abc\0\1d"), PERGIDAU_DNS_ERROR_NONE, 0},
    {"TXT without a string", 16, 1, MESSAGE(""), PERGIDAU_DNS_ERROR_INCOMPLETE, 0},
    {"TXT that is cut", 16, 1, MESSAGE("\3abc\2d"), PERGIDAU_DNS_ERROR_INCOMPLETE, 4},
    {"SOA", 6, 1, MESSAGE("\2ns\xc0\0\1b\0\0\0\0\1\0\0\0\2\0\0\0\3\0\0\0\4\0\0\0\5"),
     PERGIDAU_DNS_ERROR_NONE, 0},
    {"SOA that is cut", 6, 1, MESSAGE("\0\0\0\0\0\1\0\0\0\2\0\0\0\3\0\0\0\4\0\0\0"),
     PERGIDAU_DNS_ERROR_INCOMPLETE, 2},
    {"SOA and a byte", 6, 1, MESSAGE("\0\0\0\0\0\1\0\0\0\2\0\0\0\3\0\0\0\4\0\0\0\5\0"),
     PERGIDAU_DNS_ERROR_TRAILING, 22},
    {"SOA with one name", 6, 1, MESSAGE("\0\x40"), PERGIDAU_DNS_ERROR_RESERVED, 1},
    {"SRV", 33, 1, MESSAGE("\0\1\0\2\x13\xc4\1b\xc0\0"), PERGIDAU_DNS_ERROR_NONE, 0},
    {"SRV of five bytes", 33, 1, MESSAGE("\0\1\0\2\x13"), PERGIDAU_DNS_ERROR_INCOMPLETE, 0},
    {"SRV without a target", 33, 1, MESSAGE("\0\1\0\2\x13\xc4"), PERGIDAU_DNS_ERROR_INCOMPLETE, 6},
    {"SRV of another class", 33, 4, MESSAGE("\0\1"), PERGIDAU_DNS_ERROR_NONE, 0},
    {"OPT", 41, 4096, MESSAGE(""), PERGIDAU_DNS_ERROR_NONE, 0},
    {"an unknown type", 65280, 1, MESSAGE("\x40\xff"), PERGIDAU_DNS_ERROR_NONE, 0},
};

/* The record after `a.` of a type, a class and data of this size, and more bytes; returns the length. */
static size_t put_record(uint8_t *message, uint16_t type, uint16_t of_class, const char *data, size_t size)
{
    static const char front[] = "\1a\0\xc0\0";
    const uint8_t fields[] = {(uint8_t)(type >> 8), (uint8_t)type, (uint8_t)(of_class >> 8),
                              (uint8_t)of_class, 0xfe, 0xdc, 0xba, 0x98, (uint8_t)(size >> 8), (uint8_t)size};
    memcpy(message, front, 5);
    memcpy(message + 5, fields, sizeof fields);
    memcpy(message + 15, data, size);
    return 15 + size;
}

static void test_dns_record(const char *row, const uint8_t *message, size_t length, uint16_t type,
                        uint16_t of_class, size_t size, enum pergidau_dns_error error, size_t place)
{
    uint8_t *bytes = copied((const char *)message, length);
    struct pergidau_dns_record out;
    bool done = error == PERGIDAU_DNS_ERROR_NONE;
    memset(&out, 1, sizeof out);
    same("dns_record_at", row, pergidau_dns_record_at(bytes, length, 3, &out),
         done ? PERGIDAU_DONE : PERGIDAU_INVALID);
    same("the end of the name", row, (long long)out.name_end, done ? 5 : 0);
    same("the type", row, out.record_type, done ? type : 0);
    same("the class", row, out.record_class, done ? of_class : 0);
    same("the time to live", row, out.time_to_live, done ? 0xfedcba98 : 0);
    same("the offset of the data", row, (long long)out.span.offset, done ? 15 : 0);
    same("the size of the data", row, (long long)out.span.length, done ? (long long)size : 0);
    same("the end", row, (long long)out.end, done ? 15 + (long long)size : 0);
    same("the error", row, out.fault.error, error);
    same("the offset", row, (long long)out.fault.offset, (long long)place);
    free(bytes);
}

static void test_dns_records(void)
{
    uint8_t message[64] = {0};
    for (size_t i = 0; i < sizeof dns_records / sizeof *dns_records; i++) {
        uint16_t type = dns_records[i].type, of_class = dns_records[i].of_class;
        size_t size = dns_records[i].size;
        bool done = dns_records[i].error == PERGIDAU_DNS_ERROR_NONE;
        size_t length = put_record(message, type, of_class, dns_records[i].data, size);
        memset(message + length, 0, 2);
        for (size_t more = 0; more < 3; more++) {
            test_dns_record(dns_records[i].row, message, length + more, type, of_class, size,
                        dns_records[i].error, done ? 0 : 15 + dns_records[i].place);
        }
        /* A message that ends earlier is incomplete, for all data. */
        for (size_t cut = 0; cut < length; cut++) {
            test_dns_record(dns_records[i].row, message, cut, type, of_class, size,
                        PERGIDAU_DNS_ERROR_INCOMPLETE, cut < 5 ? 3 : cut < 15 ? 5 : 15);
        }
    }
}

/* A response with a question and three records, walked through as a caller does. */
static void test_dns_walk(void)
{
    static const char message[] =
        "\x12\x34\x81\x80\0\1\0\2\0\0\0\1\3www\7example\3com\0\0\1\0\1"
        "\xc0\x0c\0\5\0\1\0\0\x0e\x10\0\6\3cdn\xc0\x10"
        "\xc0\x2d\0\1\0\1\0\0\0\x3c\0\4\xc0\0\2\7"
        "\0\0\x29\x10\0\0\0\0\0\0\0";
    static const uint16_t types[] = {5, 1, 41};
    static const char *const ends[] = {"\3www\7example\3com", "\3cdn\7example\3com", ""};
    const uint8_t *bytes = (const uint8_t *)message;
    size_t length = sizeof message - 1;
    struct pergidau_dns_header header;
    struct pergidau_dns_question question;
    struct pergidau_dns_record record;
    struct pergidau_dns_name name;
    uint8_t text[PERGIDAU_DNS_MAX_NAME];
    same("dns_message_header", "a response", pergidau_dns_message_header(bytes, length, &header),
         PERGIDAU_DONE);
    same("dns_question_at", "a response", pergidau_dns_question_at(bytes, length, 12, &question),
         PERGIDAU_DONE);
    same("the type", "a response", question.record_type, 1);
    size_t at = question.end;
    for (int i = 0; i < header.answer_count + header.additional_count; i++) {
        same("dns_record_at", "a response", pergidau_dns_record_at(bytes, length, at, &record),
             PERGIDAU_DONE);
        same("the type", "a response", record.record_type, types[i]);
        same("dns_name_at", "a response",
             pergidau_dns_name_at(bytes, length, at, text, sizeof text, &name), PERGIDAU_DONE);
        same("the name", ends[i], strcmp((const char *)text, ends[i]), 0);
        same("the end", "a response", (long long)name.end, (long long)record.name_end);
        if (record.record_type == 5) {
            same("dns_name_at", "a response",
                 pergidau_dns_name_at(bytes, length, record.span.offset, text, sizeof text, &name),
                 PERGIDAU_DONE);
            same("the name", "CNAME", strcmp((const char *)text, ends[1]), 0);
            same("the end", "CNAME", (long long)name.end, (long long)record.end);
        }
        at = record.end;
    }
    same("the end", "a response", (long long)at, (long long)length);
}

static void test_wrong_dns(void)
{
    const uint8_t *bytes = (const uint8_t *)"\0";
    const size_t far = (size_t)PTRDIFF_MAX + 1;
    uint8_t buffer[2] = {0xab, 0xab};
    struct pergidau_dns_header header = {.id = 99};
    struct pergidau_dns_name name = {99, 99, {PERGIDAU_DNS_ERROR_TRAILING, 99}};
    struct pergidau_dns_question question = {.end = 99};
    struct pergidau_dns_record record = {.end = 99};
    same("a null message", "header", pergidau_dns_message_header(NULL, 1, &header), PERGIDAU_NULL);
    same("a null header", "header", pergidau_dns_message_header(bytes, 1, NULL), PERGIDAU_NULL);
    same("too long", "header", pergidau_dns_message_header(bytes, far, &header), PERGIDAU_TOO_LONG);
    same("a null message", "name", pergidau_dns_name_at(NULL, 1, 0, buffer, 2, &name), PERGIDAU_NULL);
    same("a null buffer", "name", pergidau_dns_name_at(bytes, 1, 0, NULL, 2, &name), PERGIDAU_NULL);
    same("a null name", "name", pergidau_dns_name_at(bytes, 1, 0, buffer, 2, NULL), PERGIDAU_NULL);
    same("too long", "name", pergidau_dns_name_at(bytes, far, 0, buffer, 2, &name), PERGIDAU_TOO_LONG);
    same("too long", "name", pergidau_dns_name_at(bytes, 1, 0, buffer, far, &name), PERGIDAU_TOO_LONG);
    same("a null message", "question", pergidau_dns_question_at(NULL, 1, 0, &question), PERGIDAU_NULL);
    same("a null question", "question", pergidau_dns_question_at(bytes, 1, 0, NULL), PERGIDAU_NULL);
    same("too long", "question", pergidau_dns_question_at(bytes, far, 0, &question), PERGIDAU_TOO_LONG);
    same("a null message", "record", pergidau_dns_record_at(NULL, 1, 0, &record), PERGIDAU_NULL);
    same("a null record", "record", pergidau_dns_record_at(bytes, 1, 0, NULL), PERGIDAU_NULL);
    same("too long", "record", pergidau_dns_record_at(bytes, far, 0, &record), PERGIDAU_TOO_LONG);
    same("nothing is written", "header", header.id, 99);
    same("nothing is written", "name", (long long)(name.length + name.end + name.fault.offset), 297);
    same("nothing is written", "name", buffer[0] == 0xab && buffer[1] == 0xab, 1);
    same("nothing is written", "question", (long long)question.end, 99);
    same("nothing is written", "record", (long long)record.end, 99);
    same("no bytes", "header", pergidau_dns_message_header(NULL, 0, &header), PERGIDAU_INVALID);
    same("no bytes", "name", pergidau_dns_name_at(NULL, 0, 0, NULL, 0, &name), PERGIDAU_INVALID);
    same("no buffer", "name", pergidau_dns_name_at(bytes, 1, 0, NULL, 0, &name),
         PERGIDAU_BUFFER_TOO_SMALL);
    same("the length", "name", (long long)name.length, 1);
}

static void test_dns(void)
{
    test_dns_names();
    test_long_names();
    test_many_pointers();
    test_dns_headers();
    test_dns_questions();
    test_dns_records();
    test_dns_walk();
    test_wrong_dns();
    test_message(pergidau_dns_error_message(PERGIDAU_DNS_ERROR_NONE), "no error");
    test_message(pergidau_dns_error_message(PERGIDAU_DNS_ERROR_TOO_LONG), "name too long");
    test_message(pergidau_dns_error_message((enum pergidau_dns_error)7), "unknown error");
    same("errors", "DNS", PERGIDAU_DNS_ERROR_NOT_PRIOR, 4);
}

#endif
