/* Measures calls on worst-case inputs: the peak memory and the allocated memory per byte of input,
 * and the stack. Prints a table row for each input. Exits with 1 if a row exceeds the header's limit.
 * Link it with `-Wl,--wrap=malloc,--wrap=realloc,--wrap=free` and -pthread. */
#include <pthread.h>
#include <stdbool.h>
#include <stdio.h>
#include <stdlib.h>
#include <string.h>
#include <sys/mman.h>

#include "pergidau.h"

/* Lists grow by doubling, so that one entry more than a power of two costs the most. */
enum { STACK = 8 << 20, MARK = 0xa5, LENGTH = 1 << 20, POWER = LENGTH / 4 };

static size_t held, most_held, asked;
void *__real_malloc(size_t size);
void *__real_realloc(void *block, size_t size);
void __real_free(void *block);

static void count(size_t size)
{
    asked += size;
    held += size;
    most_held = held > most_held ? held : most_held;
}

/* Stores the length of each block in front of it. */
void *__wrap_malloc(size_t size)
{
    size_t *block = __real_malloc(size + 16);
    if (block == NULL) {
        return NULL;
    }
    *block = size;
    count(size);
    return block + 2;
}

void __wrap_free(void *block)
{
    if (block != NULL) {
        size_t *start = (size_t *)block - 2;
        held -= *start;
        __real_free(start);
    }
}

/* A reallocation may copy the block, so the old and the new block count at the same time. */
void *__wrap_realloc(void *block, size_t size)
{
    void *grown = __wrap_malloc(size);
    if (grown != NULL && block != NULL) {
        size_t old = *((size_t *)block - 2);
        memcpy(grown, block, old < size ? old : size);
        __wrap_free(block);
    }
    return grown;
}

enum call { CALC, PAIR, DOCUMENT, ENTRY, LOOKUP, CHECK, VALUE, NEXT, STEP, STRING, INTEGER, NATURAL, DECIMAL, DIAGNOSE, MEMBER, NODES, POINTER, NODE_MEMBER, NODE_ELEMENT, JSON_WRITE, VALUE_EXTENT, HEAD,
            HEAD_IN_PIECES, HEAD_EXTENT, REQUEST_BODY, REQUEST_FRAMING, RESPONSE_FRAMING, FIELD, RESPONSE, RESPONSE_IN_PIECES, RESPONSE_EXTENT, RECORD, RECORD_IN_PIECES,
            RECORD_EXTENT, CSV_WRITE, REPLY, REPLY_IN_PIECES, EXTENT, RESP_NODES, COMMAND, CHUNKED, POSITION,
            TOML, DATE_TIME, NANOSECOND, FIND, DOUBLE, DNS_HEADER, DNS_NAME, DNS_QUESTION, DNS_RECORD };
static const char *const names[] = {
    "calc_value", "pair_line", "pair_document", "ini_next", "ini_get", "json_check", "json_value", "json_next",
    "json_step", "json_string", "json_integer", "json_natural", "json_decimal", "json_diagnose",
    "json_member", "json_nodes", "json_pointer", "json_node_member",
    "json_node_element", "json_write_string", "json_extent", "http_head", "http_head_partial",
    "http_head_extent", "http_request_body", "http_request_framing", "http_response_framing",
    "http_field", "http_response_head", "http_response_head_partial",
    "http_response_head_extent", "csv_record",
    "csv_record_partial", "csv_record_extent", "csv_write", "resp_reply", "resp_reply_partial",
    "resp_extent", "resp_nodes", "resp_command", "http_chunked", "text_position", "toml_document",
    "toml_date_time", "toml_nanosecond", "toml_find", "text_double",
    "dns_message_header", "dns_name_at", "dns_question_at", "dns_record_at",
};

/* Inputs: a start, a repeated part, and an end. `memory` is the header's limit of the peak memory, in
 * bytes per byte of input; `stack` is the limit of the stack, in KiB. */
static const struct {
    enum call call;
    const char *front, *again, *end;
    size_t turns, memory, stack;
} rows[] = {
    {CALC, "", "-", "1", LENGTH, 100, 16},
    {CALC, "", "1^", "1", LENGTH / 2, 100, 16},
    {CALC, "", "1+1*1^-", "1", LENGTH / 7, 100, 16},
    {CALC, "1", "!", "", LENGTH, 100, 16},
    {CALC, "", "1+", "1", LENGTH / 2, 100, 16},
    {CALC, "", " ", "1", LENGTH, 100, 16},
    {PAIR, "a=", "b", "\n", LENGTH, 0, 16},
    {PAIR, "", "b", "\n", LENGTH, 0, 16},
    {DOCUMENT, "", "[]", "", POWER + 1, 100, 16},
    {DOCUMENT, "", "[]", "", POWER, 100, 16},
    {DOCUMENT, "[]\n", "a=\n", "", POWER + 1, 100, 16},
    {DOCUMENT, "", "[]a=\n", "", POWER / 2 + 1, 100, 16},
    {DOCUMENT, "", "[]a=\n", "", POWER + 1, 100, 16},
    {DOCUMENT, "", "[]a=\na=\n", "", POWER + 1, 100, 16},
    {DOCUMENT, "", "[]", "x", POWER + 1, 100, 16},
    {DOCUMENT, "[]\na=", "b", "", LENGTH, 100, 16},
    {ENTRY, "", "#\n", "", LENGTH / 2, 0, 16},
    {ENTRY, "", " ", "a", LENGTH, 0, 16},
    {ENTRY, "[", "a", "]", LENGTH, 0, 16},
    {LOOKUP, "", "a\n", "", LENGTH / 2, 0, 16},
    {LOOKUP, "", "a", "\n", LENGTH, 0, 16},
    {CHECK, "", "[", "", LENGTH, 0, 512},
    {CHECK, "", "{\"a\":", "", LENGTH / 5, 0, 512},
    {CHECK, "[", "[{}],", "1]", LENGTH / 5, 0, 512},
    {VALUE, "", "[", "", LENGTH, 0, 512},
    {VALUE, "", "{\"a\":", "", LENGTH / 5, 0, 512},
    {NEXT, "", "[", "", LENGTH, 0, 512},
    {NEXT, "", "{\"a\":", "", LENGTH / 5, 0, 512},
    {STEP, "\"", "a", "\"", LENGTH, 0, 16},
    {STEP, "", " ", "[", LENGTH, 0, 16},
    {STRING, "\"", "\\ud83d\\ude00", "\"", LENGTH / 12, 0, 16},
    {STRING, "\"", "a", "\"", LENGTH, 0, 16},
    {INTEGER, "", "1", "", LENGTH, 0, 16},
    {NATURAL, "", "1", "", LENGTH, 0, 16},
    {DECIMAL, "", "1", "", LENGTH, 0, 16},
    {DECIMAL, "1", "0", "", LENGTH, 0, 16},
    {DIAGNOSE, "", "[", "", LENGTH, 1, 512},
    {DIAGNOSE, "", "{\"a\":", "", LENGTH / 5, 1, 512},
    {DIAGNOSE, "[", "[{}],", "1x", LENGTH / 5, 1, 512},
    {NODES, "", "[", "", LENGTH, 0, 512},
    {VALUE_EXTENT, "", "[", "", LENGTH, 0, 16},
    {VALUE_EXTENT, "\"", "\\u0061", "\"", LENGTH / 6, 0, 16},
    {NODES, "", "{\"a\":", "", LENGTH / 5, 0, 512},
    {MEMBER, "{\"b\":", "[", "", LENGTH, 0, 512},
    {MEMBER, "{", "\"a\":1,", "", LENGTH / 6, 0, 512},
    {MEMBER, "{\"", "\\u0061", "\":1}", LENGTH / 6, 0, 512},
    {POINTER, "{\"b\":", "[", "", LENGTH, 0, 512},
    {POINTER, "{", "\"b\":1,", "\"a\":2}", LENGTH / 6, 0, 512},
    {NODE_MEMBER, "\"", "\\u0061", "\"", LENGTH / 6, 0, 16},
    {NODE_ELEMENT, "", "[", "", LENGTH, 0, 16},
    {JSON_WRITE, "", "\1", "", LENGTH, 0, 16},
    {HEAD, "GET / HTTP/1.1\r\n", "a:\r\n", "\r\n", LENGTH / 4, 0, 16},
    {HEAD, "GET / HTTP/1.1\r\na: ", "b", "\r\n\r\n", LENGTH, 0, 16},
    {HEAD, "GET / HTTP/1.1\r\n", "a:\r\n", "", POWER + 1, 0, 16},
    {HEAD_IN_PIECES, "GET / HTTP/1.1\r\n", "a:\r\n", "\r\n", LENGTH / 4, 0, 16},
    {HEAD_IN_PIECES, "GET / HTTP/1.1\r\n", "a:\r\n", "", POWER + 1, 0, 16},
    {HEAD_EXTENT, "GET / HTTP/1.1\r\n", "a:\r\n", "\r\n", LENGTH / 4, 0, 16},
    {HEAD_EXTENT, "GET / HTTP/1.1\r\na: ", "b", "", LENGTH, 0, 16},
    {RESPONSE_EXTENT, "HTTP/1.1 200 OK\r\n", "a:\r\n", "\r\n", LENGTH / 4, 0, 16},
    {RESPONSE, "HTTP/1.1 200 OK\r\n", "a:\r\n", "\r\n", LENGTH / 4, 0, 16},
    {REQUEST_BODY, "A b HTTP/1.1\r\nhost:\r\n", "a:\r\n", "\r\n", POWER + 1, 32, 16},
    {REQUEST_BODY, "A b HTTP/1.1\r\nhost:\r\ncontent-length:", "5,", "5\r\n\r\n", LENGTH / 2, 32, 16},
    {REQUEST_BODY, "A b HTTP/1.1\r\nhost:\r\ntransfer-encoding:", "a,", "chunked\r\n\r\n", LENGTH / 2, 32, 16},
    {REQUEST_FRAMING, "/transfer-encoding", "a,", "chunked", LENGTH / 2, 0, 16},
    {RESPONSE_FRAMING, "/transfer-encoding", "a;b=\",\",", "chunked", LENGTH / 8, 0, 16},
    {FIELD, "", "a", "", LENGTH, 0, 16},
    {RESPONSE, "HTTP/1.1 200 ", "b", "\r\n\r\n", LENGTH, 0, 16},
    {RESPONSE_IN_PIECES, "HTTP/1.1 200\r\n", "a:\r\n", "", POWER + 1, 0, 16},
    {RECORD, "", ",", "\n", LENGTH, 0, 16},
    {RECORD, "", "a,", "\n", LENGTH / 2, 0, 16},
    {RECORD, "\"", "\"\"", "\"", LENGTH / 2, 0, 16},
    {RECORD, "\"", "\"\"", "", LENGTH / 2, 0, 16},
    {RECORD, "", ",", "\"", LENGTH, 0, 16},
    {RECORD_IN_PIECES, "", ",", "\n", LENGTH, 0, 16},
    {RECORD_IN_PIECES, "", "a,", "", LENGTH / 2, 0, 16},
    {RECORD_IN_PIECES, "", ",", "\"\"x", LENGTH, 0, 16},
    {RECORD_EXTENT, "", ",", "\n", LENGTH, 0, 16},
    {RECORD_EXTENT, "\"", "\"\"", "", LENGTH / 2, 0, 16},
    {CSV_WRITE, "", "\"", "", LENGTH, 0, 16},
    {CSV_WRITE, "", "a", "\n", LENGTH, 0, 16},
    {CSV_WRITE, "", "a", "", LENGTH, 0, 16},
    {REPLY, "", "*1\r\n", ":1\r\n", 512, 32, 512},
    {REPLY, "", "*1\r\n", ":1\r\n", LENGTH / 4, 32, 512},
    {REPLY, "*262144\r\n", ":1\r\n", "", 262144, 32, 512},
    {REPLY, "*262144\r\n", "*0\r\n", "", 262144, 32, 512},
    {REPLY, "*174762\r\n", "$0\r\n\r\n", "", 174762, 32, 512},
    {REPLY, "", "*1000000000000\r\n", "", 1, 32, 512},
    {REPLY, "", "*1000000000000\r\n", "", 512, 32, 512},
    {REPLY_IN_PIECES, "", "*1000000000000\r\n", "", 512, 32, 512},
    {REPLY_IN_PIECES, "", "*1\r\n", ":1\r\n", 512, 32, 512},
    {REPLY_IN_PIECES, "*262144\r\n", ":1\r\n", "", 262144, 32, 512},
    {REPLY_IN_PIECES, "*262145\r\n", ":1\r\n", "", 262144, 32, 512},
    {RESP_NODES, "", "*1\r\n", ":1\r\n", 512, 0, 512},
    {RESP_NODES, "", "*1\r\n", ":1\r\n", LENGTH / 4, 0, 512},
    {RESP_NODES, "*262144\r\n", ":1\r\n", "", 262144, 0, 512},
    {EXTENT, "*262144\r\n", ":1\r\n", "", 262144, 0, 16},
    {EXTENT, "", "*1\r\n", ":1\r\n", LENGTH / 4, 0, 16},
    {EXTENT, "+", "a", "", LENGTH, 0, 16},
    {COMMAND, "", "a", "", LENGTH, 0, 16},
    {CHUNKED, "1;a=\"", "b", "\"\r\n", LENGTH, 0, 16},
    {CHUNKED, "0\r\na:", "b", "\r\n\r\n", LENGTH, 0, 16},
    {CHUNKED, "ffffff\r\n", "b", "", LENGTH, 0, 16},
    {POSITION, "", "\xc3\xa9\n", "", LENGTH / 3, 0, 16},
    {DATE_TIME, "00:00:00.", "5", "", LENGTH, 4, 16},
    {DATE_TIME, "00:00:00.", "5", "", POWER + 1, 4, 16},
    {NANOSECOND, "", "5", "", LENGTH, 0, 16},
    {FIND, "", "a", "", LENGTH, 0, 16},
    {DOUBLE, "0.", "5", "", LENGTH, 0, 16},
    {DOUBLE, "1e", "9", "", LENGTH, 0, 16},
    {TOML, "", "\n", "", POWER + 1, 600, 1024},
    {TOML, "a=", "[", "", LENGTH, 600, 1024},
    {TOML, "a=", "{a=", "", LENGTH / 3, 600, 1024},
    {TOML, "a=[", "1,", "]", POWER + 1, 600, 1024},
    {TOML, "a=[", "{},", "]", POWER + 1, 600, 1024},
    {TOML, "a=[", "[],", "]", POWER + 1, 600, 1024},
    {TOML, "a", ".a", "=1", POWER + 1, 600, 1024},
    {TOML, "", "[[a]]\n", "", POWER / 4 + 1, 600, 1024},
    {TOML, "", "[[a]]\nb=1\n", "", POWER / 4 + 1, 600, 1024},
    {TOML, "a='", "b", "'", LENGTH, 600, 1024},
    {TOML, "a=[", "1,", "]\na=1", POWER + 1, 600, 1024},
    {DNS_HEADER, "", "a", "", LENGTH, 0, 16},
    {DNS_NAME, "", "\1a\xc0.", "", 127, 40, 64},
    {DNS_NAME, "", "\1a\xc0.", "", 64, 40, 64},
    {DNS_QUESTION, "", "\1a", "", 127, 40, 64},
    {DNS_RECORD, "-----------", "a", "", 32769, 64, 64},
    {DNS_RECORD, "-----------", "a", "", 65535, 64, 64},
};

static const uint8_t *bytes;
static size_t length;
/* For what is written: each byte of the input may be doubled. */
static uint8_t written[2 * LENGTH + 64];

static enum pergidau_code call(enum call which, size_t max_depth)
{
    struct pergidau_number number;
    struct pergidau_pair pair;
    struct pergidau_pair_sizes document;
    struct pergidau_ini_state reading = {0};
    struct pergidau_ini_entry entry;
    struct pergidau_json_item item;
    struct pergidau_json_text text;
    int64_t integer;
    uint64_t natural;
    struct pergidau_decimal decimal;
    struct pergidau_json_diagnostic diagnostic;
    struct pergidau_json_value_state value = {0};
    struct pergidau_http_request head;
    struct pergidau_http_head_state passed = {0};
    struct pergidau_http_body body;
    struct pergidau_field field = {{0, length}, {0, 0}};
    /* A head whose target is the first byte, and whose field has a name of 17 bytes. */
    const struct pergidau_http_request framed = {.target = {0, 1}, .fields = 1, .major = 2};
    const struct pergidau_http_response answered = {.fields = 1, .status = 200, .major = 2};
    const struct pergidau_field coding = {{1, 17}, {18, length - 18}};
    struct pergidau_http_framing framing;
    struct pergidau_http_response response;
    struct pergidau_csv_record_sizes record;
    struct pergidau_csv_record_state fields = {0};
    const struct pergidau_csv_dialect lines = {',', '"', PERGIDAU_CSV_LF};
    struct pergidau_resp_value reply;
    struct pergidau_resp_reply_state state = {0};
    struct pergidau_resp_nodes_size size;
    /* Without limits, so that all bytes are consumed. */
    struct pergidau_chunked_state chunked = {1, 0, 0, SIZE_MAX, SIZE_MAX, SIZE_MAX, SIZE_MAX};
    struct pergidau_chunked_step step;
    struct pergidau_position position;
    struct pergidau_toml_result toml;
    struct pergidau_toml_date_time_parts parts;
    struct pergidau_toml_node table[2] = {{.first = 1}, {.name = {0, length}}};
    uint32_t nanosecond;
    double real;
    struct pergidau_dns_header header;
    struct pergidau_dns_name name;
    struct pergidau_dns_question question;
    struct pergidau_dns_record resource;
    struct pergidau_bytes slice = {bytes, length};
    const struct pergidau_json_node named[] = {{PERGIDAU_JSON_OBJECT, 0, 0, 3}, {PERGIDAU_JSON_NAME, 0, 0, 2},
                                               {PERGIDAU_JSON_NULL, 0, 0, 3}};
    const struct pergidau_json_node listed[] = {{PERGIDAU_JSON_ARRAY, 0, 0, 3}, {PERGIDAU_JSON_NULL, 0, 0, 2},
                                                {PERGIDAU_JSON_NULL, 0, 0, 3}};
    size_t found;
    switch (which) {
    case CALC:
        return pergidau_calc_value(bytes, length, &number);
    case PAIR:
        return pergidau_pair_line(bytes, length, &pair);
    case DOCUMENT:
        return pergidau_pair_document(bytes, length, NULL, 0, NULL, 0, &document);
    case ENTRY:
        return pergidau_ini_next(&reading, bytes, length, PERGIDAU_INI_DIALECT_LENIENT, &entry);
    case LOOKUP:
        return pergidau_ini_get(&reading, bytes, length, PERGIDAU_INI_DIALECT_LENIENT, bytes, 0,
                                bytes, length, &entry);
    case CHECK:
        return pergidau_json_check(bytes, length, max_depth);
    case VALUE:
        return pergidau_json_value(bytes, length, max_depth, &found);
    case NEXT:
        return pergidau_json_next(bytes, length, max_depth, &item);
    case STEP:
        return pergidau_json_step(bytes, length, &item);
    case STRING:
        return pergidau_json_string(bytes, length, NULL, 0, &text);
    case INTEGER:
        return pergidau_json_integer(bytes, length, &integer);
    case NATURAL:
        return pergidau_json_natural(bytes, length, &natural);
    case DECIMAL:
        return pergidau_json_decimal(bytes, length, &decimal);
    case DIAGNOSE:
        return pergidau_json_diagnose(bytes, length, max_depth, &diagnostic);
    case MEMBER:
        return pergidau_json_member(bytes, length, max_depth, bytes, length, 0, &found);
    case NODES:
        return pergidau_json_nodes(bytes, length, max_depth, NULL, 0, &found);
    case POINTER:
        return pergidau_json_pointer(bytes, length, max_depth, (const uint8_t *)"/a", 2, &item);
    case NODE_MEMBER:
        return pergidau_json_node_member(bytes, length, named, 3, 0, bytes, length, 0, &found);
    case NODE_ELEMENT:
        return pergidau_json_node_element(listed, 3, 0, 1, &found);
    case JSON_WRITE:
        return pergidau_json_write_string(bytes, length, written, sizeof written, &found);
    case VALUE_EXTENT:
        return pergidau_json_extent(&value, bytes, length, 1, written, sizeof written, &found);
    case HEAD:
        return pergidau_http_head(bytes, length, NULL, 0, &head);
    case HEAD_IN_PIECES:
        return pergidau_http_head_partial(bytes, length, NULL, 0, &head);
    case HEAD_EXTENT:
        return pergidau_http_head_extent(&passed, bytes, length, &found);
    case REQUEST_BODY:
        return pergidau_http_request_body(bytes, length, &body);
    case REQUEST_FRAMING:
        return pergidau_http_request_framing(bytes, length, &coding, 1, &framed, &framing);
    case RESPONSE_FRAMING:
        return pergidau_http_response_framing(bytes, 1, bytes, length, &coding, 1, &answered, &framing);
    case FIELD:
        return pergidau_http_field(bytes, length, &field, 1, bytes, length, &found);
    case RESPONSE:
        return pergidau_http_response_head(bytes, length, NULL, 0, &response);
    case RESPONSE_IN_PIECES:
        return pergidau_http_response_head_partial(bytes, length, NULL, 0, &response);
    case RESPONSE_EXTENT:
        return pergidau_http_response_head_extent(&passed, bytes, length, &found);
    case RECORD:
        return pergidau_csv_record(bytes, length, &lines, NULL, 0, NULL, 0, &record);
    case RECORD_IN_PIECES:
        return pergidau_csv_record_partial(bytes, length, &lines, NULL, 0, NULL, 0, &record);
    case RECORD_EXTENT:
        return pergidau_csv_record_extent(&fields, bytes, length, &lines, &record);
    case CSV_WRITE:
        return pergidau_csv_write(&slice, 1, &lines, written, sizeof written, &found);
    case REPLY:
        return pergidau_resp_reply(bytes, length, 2, max_depth, &reply);
    case REPLY_IN_PIECES:
        return pergidau_resp_reply_partial(bytes, length, 2, max_depth, &reply);
    case EXTENT:
        return pergidau_resp_extent(&state, bytes, length, 2, &found);
    case RESP_NODES:
        return pergidau_resp_nodes(bytes, length, 2, max_depth, NULL, 0, &size);
    case COMMAND:
        return pergidau_resp_command(&slice, 1, written, sizeof written, &found);
    case CHUNKED:
        return pergidau_http_chunked(&chunked, bytes, length, &step);
    case TOML:
        return pergidau_toml_document(bytes, length, max_depth, NULL, 0, NULL, 0, &toml);
    case DATE_TIME:
        return pergidau_toml_date_time(bytes, length, &parts);
    case NANOSECOND:
        return pergidau_toml_nanosecond(bytes, length, &nanosecond);
    case FIND:
        return pergidau_toml_find(bytes, length, table, 2, 0, &slice, 1, &found);
    case DOUBLE:
        return pergidau_text_double(bytes, length, &real);
    case DNS_HEADER:
        return pergidau_dns_message_header(bytes, length, &header);
    case DNS_NAME:
        return pergidau_dns_name_at(bytes, length, length - 4, written, sizeof written, &name);
    case DNS_QUESTION:
        return pergidau_dns_question_at(bytes, length, 0, &question);
    case DNS_RECORD:
        return pergidau_dns_record_at(bytes, length, 0, &resource);
    default:
        return pergidau_text_position(bytes, length, length / 2, &position);
    }
}

static enum pergidau_code code;

static void *called(void *row)
{
    code = call(rows[*(size_t *)row].call, PERGIDAU_MAX_DEPTH);
    return NULL;
}

static void *nothing(void *row)
{
    return row;
}

/* Returns how many bytes of its stack a thread that calls `run` uses. */
static size_t stack_of(void *(*run)(void *), void *row)
{
    pthread_t thread;
    pthread_attr_t attributes;
    uint8_t *stack = mmap(NULL, STACK, PROT_READ | PROT_WRITE, MAP_PRIVATE | MAP_ANONYMOUS, -1, 0);
    if (stack == MAP_FAILED) {
        exit(2);
    }
    memset(stack, MARK, STACK);
    if (pthread_attr_init(&attributes) || pthread_attr_setstack(&attributes, stack, STACK)
        || pthread_create(&thread, &attributes, run, row) || pthread_join(thread, NULL)) {
        exit(2);
    }
    size_t unused = 0;
    while (stack[unused] == MARK) {
        unused++;
    }
    munmap(stack, STACK);
    return STACK - unused;
}

/* Writes what a string cannot have: of a chain of labels, each with a pointer to the one before, the
 * pointers, and a record of as many empty character strings as its data have bytes. */
static void put_zeros(size_t i, uint8_t *made)
{
    if (rows[i].call == DNS_NAME) {
        made[2] = 0;
        for (size_t at = 4; at < length; at += 4) {
            made[at + 2] = (uint8_t)(0xc0 | (at - 4) >> 8);
            made[at + 3] = (uint8_t)(at - 4);
        }
    } else if (rows[i].call == DNS_RECORD) {
        memset(made, 0, length);
        made[2] = 16;
        made[9] = (uint8_t)(rows[i].turns >> 8);
        made[10] = (uint8_t)rows[i].turns;
    }
}

static void make(size_t i)
{
    size_t front = strlen(rows[i].front), again = strlen(rows[i].again), end = strlen(rows[i].end);
    length = front + rows[i].turns * again + end;
    uint8_t *made = mmap(NULL, length, PROT_READ | PROT_WRITE, MAP_PRIVATE | MAP_ANONYMOUS, -1, 0);
    if (made == MAP_FAILED) {
        exit(2);
    }
    memcpy(made, rows[i].front, front);
    for (size_t k = 0; k < rows[i].turns; k++) {
        memcpy(made + front + k * again, rows[i].again, again);
    }
    memcpy(made + length - end, rows[i].end, end);
    put_zeros(i, made);
    bytes = made;
}

int main(void)
{
    bool wrong = false;
    size_t own = stack_of(nothing, NULL);
    printf("| Call | Input | Bytes | Result | Peak memory per byte | Allocated per byte | Stack |\n");
    for (size_t i = 0; i < sizeof rows / sizeof *rows; i++) {
        make(i);
        size_t stack = stack_of(called, &i) - own;
        held = most_held = asked = 0;
        called(&i);
        double each = (double)most_held / (double)length;
        printf("| %s | `", names[rows[i].call]);
        for (const char *c = rows[i].again; *c; c++) {
            (void)(*c >= ' ' && *c < 127 ? printf("%c", *c) : printf("\\%d", (uint8_t)*c));
        }
        printf("`.. | %zu | %s | %.1f | %.1f | %zu |\n", length, pergidau_message(code), each,
               (double)asked / (double)length, stack);
        /* Each open array has a list with an initial capacity. */
        size_t lists = rows[i].memory == 32 && rows[i].stack == 512 ? rows[i].turns << 11 : 0;
        most_held -= most_held < lists ? most_held : lists;
        wrong |= (double)most_held / (double)length > (double)rows[i].memory
            || stack > rows[i].stack << 10 || held != 0;
        munmap((void *)(uintptr_t)bytes, length);
    }
    return wrong;
}
