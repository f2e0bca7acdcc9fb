/* Readers with C libraries: cJSON, http_parser, libcsv, hiredis and inih, each called as its
 * documentation recommends. Rejected input adds nothing, so the sum differs. */
#define _GNU_SOURCE
#include <csv.h>
#include <dlfcn.h>
#include <hiredis/hiredis.h>
#include <http_parser.h>
#include <ini.h>
#include <cjson/cJSON.h>
#include <string.h>

#include "peers.h"

/* Stores the number of allocations and their bytes. Returns 0 if requests.c is not loaded. */
int requests_so_far(uint64_t *requests, uint64_t *bytes)
{
    void (*said)(uint64_t *, uint64_t *) = dlsym(RTLD_DEFAULT, "requests_counted");
    if (said != NULL) {
        said(requests, bytes);
    }
    return said != NULL;
}

/* Numbers the kinds of values as in pergidau.h, from 1 on. */
static uint64_t kind_of(const cJSON *value)
{
    switch (value->type & 0xff) {
    case cJSON_NULL: return 1;
    case cJSON_False: return 2;
    case cJSON_True: return 3;
    case cJSON_Number: return 4;
    case cJSON_String: return 5;
    case cJSON_Array: return 6;
    default: return 7;
    }
}

static void count_values(const cJSON *value, uint64_t depth, struct outcome *out)
{
    out->count++;
    out->sum += kind_of(value) * depth;
    for (const cJSON *it = value->child; it != NULL; it = it->next) {
        count_values(it, depth + 1, out);
    }
}

PEER(values_by_cjson)
{
    cJSON *value = cJSON_ParseWithLength(text, length);
    if (value != NULL) {
        count_values(value, 1, out);
        cJSON_Delete(value);
    }
}

static int on_part(http_parser *parser, const char *at, size_t length)
{
    (void)at;
    ((struct outcome *)parser->data)->sum += length;
    return 0;
}

static int on_head(http_parser *parser)
{
    ((struct outcome *)parser->data)->count++;
    return 0;
}

/* Parses heads with http_parser, in chunks of `piece` bytes. */
static void heads_by_pieces(const char *text, size_t length, size_t piece, struct outcome *out)
{
    http_parser_settings settings;
    http_parser_settings_init(&settings);
    settings.on_url = settings.on_header_field = settings.on_header_value = on_part;
    settings.on_headers_complete = on_head;
    http_parser parser;
    http_parser_init(&parser, HTTP_REQUEST);
    parser.data = out;
    while (length != 0) {
        size_t given = length < piece ? length : piece;
        if (http_parser_execute(&parser, &settings, text, given) != given) {
            return;
        }
        text += given;
        length -= given;
    }
}

PEER(heads_by_http_parser)
{
    heads_by_pieces(text, length, length, out);
}

PEER(heads_in_pieces_by_http_parser)
{
    heads_by_pieces(text, length, 512, out);
}

static int on_data(http_parser *parser, const char *at, size_t length)
{
    ((struct outcome *)parser->data)->count++;
    return on_part(parser, at, length);
}

/* Parses a chunked body, after a head of its own. */
PEER(body_by_http_parser)
{
    static const char head[] = "POST / HTTP/1.1\r\nTransfer-Encoding: chunked\r\n\r\n";
    http_parser_settings settings;
    http_parser_settings_init(&settings);
    settings.on_body = on_data;
    settings.on_message_complete = on_head;
    http_parser parser;
    http_parser_init(&parser, HTTP_REQUEST);
    parser.data = out;
    http_parser_execute(&parser, &settings, head, sizeof head - 1);
    http_parser_execute(&parser, &settings, text, length);
}

static void on_field(void *field, size_t length, void *out)
{
    (void)field;
    ((struct outcome *)out)->count++;
    ((struct outcome *)out)->sum += length;
}

static void on_record(int end, void *out)
{
    (void)end;
    ((struct outcome *)out)->sum++;
}

/* Parses records with libcsv, with this delimiter and this quote. */
static void records_in(unsigned char delimiter, unsigned char quote, const char *text, size_t length,
                       struct outcome *out)
{
    struct csv_parser parser;
    if (csv_init(&parser, CSV_STRICT) != 0) {
        return;
    }
    csv_set_delim(&parser, delimiter);
    csv_set_quote(&parser, quote);
    csv_parse(&parser, text, length, on_field, on_record, out);
    csv_fini(&parser, on_field, on_record, out);
    csv_free(&parser);
}

PEER(records_by_libcsv)
{
    records_in(',', '"', text, length, out);
}

PEER(records_with_semicolons_by_libcsv)
{
    records_in(';', '\'', text, length, out);
}

static void count_replies(const redisReply *reply, struct outcome *out)
{
    out->count++;
    switch (reply->type) {
    case REDIS_REPLY_ARRAY:
        for (size_t i = 0; i < reply->elements; i++) {
            count_replies(reply->element[i], out);
        }
        break;
    case REDIS_REPLY_INTEGER:
        out->sum += (uint64_t)reply->integer;
        break;
    default:
        out->sum += reply->len;
    }
}

/* Parses replies with hiredis, in chunks of `piece` bytes. Its buffer has 16 KiB; it moves consumed
 * bytes of a longer one repeatedly. */
static void replies_by_pieces(const char *text, size_t length, size_t piece, struct outcome *out)
{
    redisReader *reader = redisReaderCreate();
    while (length != 0) {
        size_t given = length < piece ? length : piece;
        void *reply = NULL;
        redisReaderFeed(reader, text, given);
        while (redisReaderGetReply(reader, &reply) == REDIS_OK && reply != NULL) {
            count_replies(reply, out);
            freeReplyObject(reply);
            reply = NULL;
        }
        text += given;
        length -= given;
    }
    redisReaderFree(reader);
}

PEER(replies_by_hiredis)
{
    replies_by_pieces(text, length, 16 << 10, out);
}

PEER(replies_in_pieces_by_hiredis)
{
    replies_by_pieces(text, length, 1460, out);
}

/* Callbacks that count hiredis' replies without storing them. */
static void *told(const redisReadTask *task, uint64_t sum)
{
    struct outcome *out = task->privdata;
    out->count++;
    out->sum += sum;
    return out;
}

static void *told_string(const redisReadTask *task, char *text, size_t length)
{
    (void)text;
    return told(task, length);
}

static void *told_array(const redisReadTask *task, int elements)
{
    (void)elements;
    return told(task, 0);
}

static void *told_integer(const redisReadTask *task, long long value)
{
    return told(task, (uint64_t)value);
}

static void *told_nil(const redisReadTask *task)
{
    return told(task, 0);
}

static void kept_nothing(void *reply)
{
    (void)reply;
}

static void replies_told(const char *text, size_t length, size_t piece, struct outcome *out)
{
    redisReplyObjectFunctions kept = {
        told_string, told_array, told_integer, told_nil, kept_nothing,
    };
    redisReader *reader = redisReaderCreateWithFunctions(&kept);
    reader->privdata = out;
    while (length != 0) {
        size_t given = length < piece ? length : piece;
        void *reply = NULL;
        redisReaderFeed(reader, text, given);
        while (redisReaderGetReply(reader, &reply) == REDIS_OK && reply != NULL) {
            reply = NULL;
        }
        text += given;
        length -= given;
    }
    redisReaderFree(reader);
}

PEER(replies_told_by_hiredis)
{
    replies_told(text, length, 16 << 10, out);
}

PEER(replies_told_in_pieces_by_hiredis)
{
    replies_told(text, length, 1460, out);
}

static int on_pair(void *out, const char *section, const char *name, const char *value)
{
    (void)section;
    ((struct outcome *)out)->count++;
    ((struct outcome *)out)->sum += strlen(name) + strlen(value);
    return 1;
}

PEER(pairs_by_inih)
{
    (void)length;
    if (ini_parse_string(text, on_pair, out) != 0) {
        *out = (struct outcome){0, 0};
    }
}
