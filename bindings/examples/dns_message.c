/* Prints the questions and records of a DNS message, or why it is invalid:
 *
 *     dns_message < MESSAGE
 */
#include <stdio.h>

#include "pergidau.h"

/* Prints a name as in master files. Its entry was parsed, so only memory can be missing. */
static void print_name(const uint8_t *message, size_t length, size_t offset)
{
    uint8_t name[PERGIDAU_DNS_MAX_NAME] = {0};
    struct pergidau_dns_name out;
    if (pergidau_dns_name_at(message, length, offset, name, sizeof name, &out) != PERGIDAU_DONE) {
        printf("(%s)", pergidau_message(PERGIDAU_NO_MEMORY));
        return;
    }
    for (size_t label = 0; name[label] > 0; label += 1u + name[label]) {
        for (size_t at = label + 1; at <= label + name[label]; at++) {
            bool is_plain = name[at] > ' ' && name[at] < 127 && name[at] != '.' && name[at] != '\\';
            printf(is_plain ? "%c" : "\\%03d", name[at]);
        }
        printf(".");
    }
    printf(out.length == 1 ? "." : "");
}

static void print_data(const uint8_t *message, size_t length, const struct pergidau_dns_record *record)
{
    const uint8_t *data = message + record->span.offset;
    unsigned type = record->span.length > 0 ? record->record_type : 0;
    if (type == 1 && record->record_class == 1) {
        printf("%d.%d.%d.%d", data[0], data[1], data[2], data[3]);
    } else if (type == 2 || type == 5 || type == 12) {
        print_name(message, length, record->span.offset);
    } else if (type == 15) {
        printf("%d ", data[0] << 8 | data[1]);
        print_name(message, length, record->span.offset + 2);
    } else {
        printf("%zu bytes", record->span.length);
    }
}

static int failed(enum pergidau_code code, struct pergidau_dns_fault fault)
{
    printf("%s: %s at offset %zu\n", pergidau_message(code), pergidau_dns_error_message(fault.error),
           fault.offset);
    return 1;
}

int main(void)
{
    static const char *const sections[] = {"answer", "authority", "additional"};
    static uint8_t message[65536];
    size_t length = fread(message, 1, sizeof message, stdin), at = 12;
    struct pergidau_dns_header header;
    if (pergidau_dns_message_header(message, length, &header) != PERGIDAU_DONE) {
        return failed(PERGIDAU_INVALID, (struct pergidau_dns_fault){PERGIDAU_DNS_ERROR_INCOMPLETE, 0});
    }
    const unsigned counts[] = {header.answer_count, header.authority_count, header.additional_count};
    for (unsigned left = header.question_count; left > 0; left--) {
        struct pergidau_dns_question question;
        enum pergidau_code code = pergidau_dns_question_at(message, length, at, &question);
        if (code != PERGIDAU_DONE) {
            return failed(code, question.fault);
        }
        printf("question: ");
        print_name(message, length, at);
        printf(" type %d class %d\n", question.record_type, question.record_class);
        at = question.end;
    }
    for (size_t section = 0; section < 3; section++) {
        for (unsigned left = counts[section]; left > 0; left--) {
            struct pergidau_dns_record record;
            enum pergidau_code code = pergidau_dns_record_at(message, length, at, &record);
            if (code != PERGIDAU_DONE) {
                return failed(code, record.fault);
            }
            printf("%s: ", sections[section]);
            print_name(message, length, at);
            printf(" type %d class %d: ", record.record_type, record.record_class);
            print_data(message, length, &record);
            printf("\n");
            at = record.end;
        }
    }
    return 0;
}
