/* Converts the comma-separated values on standard input, with another delimiter, to RFC 4180:
 *
 *     csv_convert ';' < semicolons.csv > standard.csv
 *
 * A line ending of either kind ends a record. Exits with 1 at an invalid record, with its offset. */
#include <stdio.h>
#include <stdlib.h>

#include "pergidau.h"

/* Limits of this example: a file, and the fields of a record. */
enum { MOST_BYTES = 1 << 20, MOST_FIELDS = 1000 };

int main(int count, char **words)
{
    static uint8_t input[MOST_BYTES], text[MOST_BYTES], line[2 * MOST_BYTES + 3 * MOST_FIELDS];
    static struct pergidau_span spans[MOST_FIELDS];
    static struct pergidau_bytes fields[MOST_FIELDS];
    const struct pergidau_csv_dialect standard = {',', '"', PERGIDAU_CSV_CRLF};
    struct pergidau_csv_dialect given = {',', '"', PERGIDAU_CSV_EITHER};
    struct pergidau_csv_record_sizes record;
    size_t length = fread(input, 1, sizeof input, stdin), written;
    given.delimiter = count > 1 ? (uint8_t)words[1][0] : ',';
    for (size_t at = 0; at < length; at += record.length) {
        enum pergidau_code code = pergidau_csv_record(input + at, length - at, &given, text,
                                                      sizeof text, spans, MOST_FIELDS, &record);
        for (size_t i = 0; code == PERGIDAU_DONE && i < record.fields; i++) {
            fields[i].bytes = text + spans[i].offset;
            fields[i].bytes_length = spans[i].length;
        }
        if (code == PERGIDAU_DONE) {
            code = pergidau_csv_write(fields, record.fields, &standard, line, sizeof line, &written);
        }
        if (code != PERGIDAU_DONE) {
            fprintf(stderr, "%s at offset %zu\n", pergidau_message(code), at + record.error_offset);
            return 1;
        }
        fwrite(line, 1, written, stdout);
    }
    return 0;
}
