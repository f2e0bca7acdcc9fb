/* Writes the TOML document on standard input, or its value along names, as JSON:
 *
 *     toml_to_json < example.toml
 *     toml_to_json servers alpha ip < example.toml
 *
 * Dates, times, inf and nan are strings. Exits with 1 if it is not a document, or has no such value,
 * with the reason. */
#include <stdio.h>
#include <stdlib.h>
#include <string.h>

#include "pergidau.h"

enum { MOST_BYTES = 1 << 20, MOST_DEPTH = 64 };

static uint8_t input[MOST_BYTES], *text;
static struct pergidau_toml_node *nodes;

static void write_string(struct pergidau_span span)
{
    putchar('"');
    for (size_t i = span.offset; i < span.offset + span.length; i++) {
        if (text[i] < ' ') {
            printf("\\u%04x", text[i]);
        } else {
            printf(text[i] == '"' || text[i] == '\\' ? "\\%c" : "%c", text[i]);
        }
    }
    putchar('"');
}

/* Writes a date, a time or both, as in RFC 3339. */
static void write_time(const struct pergidau_toml_value *value)
{
    int offset = abs(value->offset);
    bool has_time = value->kind != PERGIDAU_TOML_LOCAL_DATE;
    putchar('"');
    if (value->kind != PERGIDAU_TOML_LOCAL_TIME) {
        printf("%04u-%02u-%02u%s", value->year, value->month, value->day, has_time ? "T" : "");
    }
    if (has_time) {
        printf("%02u:%02u:%02u%s", value->hour, value->minute, value->second,
               value->text.length > 0 ? "." : "");
        fwrite(text + value->text.offset, 1, value->text.length, stdout);
    }
    if (value->kind == PERGIDAU_TOML_OFFSET_DATE_TIME) {
        printf("%c%02d:%02d", value->offset < 0 ? '-' : '+', offset / 60, offset % 60);
    }
    putchar('"');
}

/* Writes a float; its digits are those of JSON, except for a plus sign and zeros before them. */
static void write_float(struct pergidau_span span)
{
    const char *digits = (const char *)text + span.offset;
    int length = (int)span.length;
    if (digits[length - 1] == 'f' || digits[length - 1] == 'n') {
        printf("\"%.*s\"", length, digits);
    } else {
        printf("%.*s", length - (*digits == '+'), digits + (*digits == '+'));
    }
}

static void write_value(size_t number)
{
    const struct pergidau_toml_value *value = &nodes[number].value;
    bool is_table = value->kind == PERGIDAU_TOML_TABLE;
    switch (value->kind) {
    case PERGIDAU_TOML_TABLE:
    case PERGIDAU_TOML_ARRAY:
        putchar(is_table ? '{' : '[');
        for (size_t at = nodes[number].first; at > 0; at = nodes[at].next) {
            if (is_table) {
                write_string(nodes[at].name);
                printf(": ");
            }
            write_value(at);
            printf(nodes[at].next > 0 ? ", " : "");
        }
        putchar(is_table ? '}' : ']');
        break;
    case PERGIDAU_TOML_STRING: write_string(value->text); break;
    case PERGIDAU_TOML_INTEGER: printf("%lld", (long long)value->integer); break;
    case PERGIDAU_TOML_FLOAT: write_float(value->text); break;
    case PERGIDAU_TOML_BOOLEAN: printf(value->integer ? "true" : "false"); break;
    default: write_time(value);
    }
}

int main(int count, char **words)
{
    size_t at = 0;
    struct pergidau_toml_result sizes;
    struct pergidau_position place;
    size_t length = fread(input, 1, sizeof input, stdin);
    enum pergidau_code code =
        pergidau_toml_document(input, length, MOST_DEPTH, NULL, 0, NULL, 0, &sizes);
    if (code == PERGIDAU_BUFFER_TOO_SMALL) {
        text = malloc(sizes.text + 1);
        nodes = malloc(sizes.nodes * sizeof *nodes);
        if (!text || !nodes) {
            return 2;
        }
        code = pergidau_toml_document(input, length, MOST_DEPTH, text, sizes.text, nodes, sizes.nodes, &sizes);
    }
    for (int i = 1; i < count && code == PERGIDAU_DONE; i++) {
        struct pergidau_bytes name = {(const uint8_t *)words[i], strlen(words[i])};
        code = pergidau_toml_find(text, sizes.text, nodes, sizes.nodes, at, &name, 1, &at);
    }
    if (code == PERGIDAU_DONE) {
        write_value(at);
        putchar('\n');
    } else if (code == PERGIDAU_END) {
        printf("no such value\n");
    } else {
        pergidau_text_position(input, length, sizes.error_offset, &place);
        printf("line %zu, column %zu: %s\n", place.line, place.column,
               code == PERGIDAU_INVALID ? pergidau_toml_error_message(sizes.error)
                                        : pergidau_message(code));
    }
    free(text);
    free(nodes);
    return code != PERGIDAU_DONE;
}
