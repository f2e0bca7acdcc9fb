/* JSON strings written from random bytes: included by fuzz.c. */

/* Compares a written string with a simpler function, and with what is read from it. */
static void write_string(const uint8_t *bytes, size_t length)
{
    static const char letters[] = "\bb\tt\nn\ff\rr\"\"\\\\";
    static char wanted[6 * (1 << 16) + 3];
    static uint8_t again[1 << 16];
    struct pergidau_json_text read;
    size_t size = 0, out;
    wanted[size++] = '"';
    for (size_t i = 0; i < length; i++) {
        const char *found = bytes[i] ? strchr(letters, bytes[i]) : NULL;
        if (found != NULL && (bytes[i] < 32 || bytes[i] == '"' || bytes[i] == '\\')) {
            wanted[size++] = '\\';
            wanted[size++] = found[1];
        } else if (bytes[i] < 32) {
            size += (size_t)sprintf(wanted + size, "\\u%04x", bytes[i]);
        } else {
            wanted[size++] = (char)bytes[i];
        }
    }
    wanted[size++] = '"';
    HOLDS(pergidau_json_write_string(bytes, length, NULL, 0, &out) == PERGIDAU_BUFFER_TOO_SMALL);
    HOLDS(out == size);
    size_t room = below(4) ? size : below(size);
    uint8_t *text = memset(buffer(room), 0xab, room);
    enum pergidau_code code = pergidau_json_write_string(bytes, length, text, room, &out);
    HOLDS(out == size && code == (room < size ? PERGIDAU_BUFFER_TOO_SMALL : PERGIDAU_DONE));
    if (room < size) {
        for (size_t i = 0; i < room; i++) {
            HOLDS(text[i] == 0xab);
        }
        return;
    }
    HOLDS(memcmp(text, wanted, size) == 0);
    HOLDS(pergidau_json_string(text, size, again, sizeof again, &read) == PERGIDAU_DONE);
    HOLDS(read.length == size && read.text == length && memcmp(again, bytes, length) == 0);
}
