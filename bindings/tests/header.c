/* Compiled as C and as C++, where structs and enums are named without a keyword. `-Wswitch` reports a
 * case that is missing here. */
#include "pergidau.h"

#ifdef __cplusplus
static pergidau_http_request head;
static pergidau_json_item item;
#else
static struct pergidau_http_request head;
static struct pergidau_json_item item;
#endif

const char *kind_of_item(void);

const char *kind_of_item(void)
{
    switch (item.kind) {
    case PERGIDAU_JSON_NULL:
    case PERGIDAU_JSON_FALSE:
    case PERGIDAU_JSON_TRUE:
    case PERGIDAU_JSON_NUMBER:
    case PERGIDAU_JSON_STRING:
        return "a scalar";
    case PERGIDAU_JSON_NAME:
        return "a name";
    case PERGIDAU_JSON_ARRAY:
    case PERGIDAU_JSON_OBJECT:
        return head.fields ? "a value in a head" : "a value";
    case PERGIDAU_JSON_BEGIN_ARRAY:
    case PERGIDAU_JSON_END_ARRAY:
    case PERGIDAU_JSON_BEGIN_OBJECT:
    case PERGIDAU_JSON_END_OBJECT:
        return "a bracket";
    }
    return "unknown";
}
