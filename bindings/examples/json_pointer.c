/* Prints the value that a JSON pointer (RFC 6901) identifies in a JSON text:
 *
 *     json_pointer '{"a": [1, {"b/c": 2}]}' /a/1/b~1c
 *
 * Or, if there is none, the innermost value that it leads to; or, if the text is not JSON, the position
 * of the error and the expected input. */
#include <stdio.h>
#include <string.h>

#include "pergidau.h"

int main(int count, char **words)
{
    struct pergidau_json_diagnostic error;
    struct pergidau_json_item item;
    if (count != 3) {
        return 2;
    }
    const uint8_t *text = (const uint8_t *)words[1];
    size_t length = strlen(words[1]);
    enum pergidau_code code = pergidau_json_diagnose(text, length, PERGIDAU_MAX_DEPTH, &error);
    if (code != PERGIDAU_DONE) {
        printf("line %zu, column %zu: %s, %s\n", error.line, error.column, pergidau_message(code),
               pergidau_json_error_message(error.error));
        return 1;
    }
    code = pergidau_json_pointer(text, length, PERGIDAU_MAX_DEPTH, (const uint8_t *)words[2],
                                 strlen(words[2]), &item);
    if (code != PERGIDAU_DONE && code != PERGIDAU_END) {
        printf("%s\n", pergidau_message(code));
        return 1;
    }
    printf("%s%.*s\n", code == PERGIDAU_END ? "no value; it leads to " : "", (int)item.span.length,
           words[1] + item.span.offset);
    return code != PERGIDAU_DONE;
}
