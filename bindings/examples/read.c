/* Evaluates a formula, and parses the head of a request. */
#include <stdio.h>
#include <string.h>

#include "pergidau.h"

static void formula(const char *text)
{
    const uint8_t *bytes = (const uint8_t *)text;
    struct pergidau_number number;
    struct pergidau_position at;
    if (pergidau_calc_value(bytes, strlen(text), &number) == PERGIDAU_DONE) {
        printf("%s is %lld\n", text, (long long)number.value);
    } else {
        pergidau_text_position(bytes, strlen(text), number.error_offset, &at);
        printf("%s: invalid input at line %zu, column %zu\n", text, at.line, at.column);
    }
}

int main(void)
{
    const char *request = "GET /hello.txt HTTP/1.1\r\nHost: www.example.com\r\nAccept: *\r\n\r\n";
    struct pergidau_field fields[16];
    struct pergidau_http_request head;
    formula("2 + 3 * 4");
    formula("1 / 0");
    if (pergidau_http_head((const uint8_t *)request, strlen(request), fields, 16, &head)) {
        return 1;
    }
    printf("%.*s has\n", (int)head.target.length, request + head.target.offset);
    for (size_t i = 0; i < head.fields; i++) {
        printf("    %.*s = %.*s\n", (int)fields[i].name.length, request + fields[i].name.offset,
               (int)fields[i].value.length, request + fields[i].value.offset);
    }
    return 0;
}
