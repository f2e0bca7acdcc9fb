/* Records and commands written from random slices. Included by `fuzz.c`. */
#ifndef WRITING_FUZZ_H
#define WRITING_FUZZ_H

enum { MOST_PARTS = 5 };

/* Splits the bytes into slices at random, and returns how many. Some overlap, and some bytes are in
 * none. */
static size_t split(const uint8_t *bytes, size_t length, struct pergidau_bytes *slices)
{
    size_t count = below(MOST_PARTS + 1);
    for (size_t i = 0; i < count; i++) {
        size_t from = below(length + 1), most = length - from < 40 ? length - from : 40;
        slices[i] = (struct pergidau_bytes){bytes + from, below(most + 1)};
    }
    return count;
}

static void write_slices(const uint8_t *bytes, size_t length)
{
    struct pergidau_bytes slices[MOST_PARTS];
    struct pergidau_csv_dialect dialect = csv_dialect();
    struct pergidau_span places[MOST_PARTS];
    struct pergidau_csv_record_sizes record;
    struct pergidau_resp_value reply;
    size_t count = split(bytes, length, slices), size = 0, out = 0, sum = 0;
    bool is_command = below(2);
    enum pergidau_code code = is_command ? pergidau_resp_command(slices, count, NULL, 0, &size)
        : pergidau_csv_write(slices, count, &dialect, NULL, 0, &size);
    HOLDS(code == (count ? PERGIDAU_BUFFER_TOO_SMALL : PERGIDAU_INVALID));
    if (count == 0) {
        HOLDS(size == 0);
        return;
    }
    /* The buffer ends at a page that cannot be written. */
    size_t room = below(4) ? size : below(size);
    uint8_t *text = memset(buffer(room), 0xab, room);
    code = is_command ? pergidau_resp_command(slices, count, text, room, &out)
        : pergidau_csv_write(slices, count, &dialect, text, room, &out);
    HOLDS(out == size);
    if (room < size) {
        HOLDS(code == PERGIDAU_BUFFER_TOO_SMALL);
        for (size_t i = 0; i < room; i++) {
            HOLDS(text[i] == 0xab);
        }
        return;
    }
    HOLDS(code == PERGIDAU_DONE);
    if (is_command) {
        HOLDS(pergidau_resp_reply(text, size, 2, 1, &reply) == PERGIDAU_DONE);
        HOLDS(reply.length == size && reply.elements == count);
        text += reply.span.offset;
        size -= reply.span.offset;
        for (size_t i = 0; i < count; i++) {
            HOLDS(pergidau_resp_reply(text, size, 2, 0, &reply) == PERGIDAU_DONE);
            HOLDS(reply.kind == PERGIDAU_RESP_BULK && reply.span.length == slices[i].bytes_length);
            HOLDS(!memcmp(text + reply.span.offset, slices[i].bytes, reply.span.length));
            text += reply.length;
            size -= reply.length;
        }
        return;
    }
    uint8_t fields[MOST_PARTS * 40];
    HOLDS(pergidau_csv_record_partial(text, size, &dialect, fields, sizeof fields, places, MOST_PARTS,
                                      &record) == PERGIDAU_DONE);
    HOLDS(record.length == size && record.fields == count);
    for (size_t i = 0; i < count; i++) {
        HOLDS(places[i].length == slices[i].bytes_length);
        HOLDS(!memcmp(fields + sum, slices[i].bytes, places[i].length));
        sum += places[i].length;
    }
}

#endif
