/* Sends the lines of standard input as commands to a Redis server of this machine, and prints the
 * replies as redis-cli does if its output is no terminal:
 *
 *     redis_client 6379 < commands
 *
 * Spaces separate words, and double quotes enclose words with spaces. */
#include <arpa/inet.h>
#include <stdio.h>
#include <stdlib.h>
#include <string.h>
#include <sys/socket.h>
#include <unistd.h>

#include "pergidau.h"

enum { MOST_BYTES = 1 << 20, MOST_WORDS = 100, MOST_DEPTH = 8, RESP2 = 2 };

static uint8_t got[MOST_BYTES], sent[MOST_BYTES];

static int fail(const char *why)
{
    fprintf(stderr, "redis_client: %s\n", why);
    return 1;
}

/* Splits a line into words. Returns their number. */
static size_t split(const char *line, struct pergidau_bytes *words)
{
    size_t count = 0;
    while (*(line += strspn(line, " \n")) && count < MOST_WORDS) {
        bool is_quoted = *line == '"';
        line += is_quoted;
        words[count].bytes = (const uint8_t *)line;
        words[count].bytes_length = strcspn(line, is_quoted ? "\"" : " \n");
        line += words[count++].bytes_length;
        line += *line == '"';
    }
    return count;
}

/* Prints a reply, with the elements of an array on a line each. */
static void show(const uint8_t *bytes, const struct pergidau_resp_value *reply)
{
    struct pergidau_resp_value element;
    size_t offset = reply->span.offset, end = offset + reply->span.length;
    switch (reply->kind) {
    case PERGIDAU_RESP_INTEGER:
        printf("%lld\n", (long long)reply->number);
        break;
    case PERGIDAU_RESP_ARRAY:
        while (pergidau_resp_reply(bytes + offset, end - offset, RESP2, MOST_DEPTH, &element)
               == PERGIDAU_DONE) {
            show(bytes + offset, &element);
            offset += element.length;
        }
        break;
    default:
        fwrite(bytes + offset, 1, end - offset, stdout);
        printf(reply->kind == PERGIDAU_RESP_ERROR ? "\n\n" : "\n");
    }
}

/* Receives and prints the reply to a command, of which each byte is scanned once for its end. */
static enum pergidau_code receive(int server)
{
    struct pergidau_resp_reply_state state = {0};
    struct pergidau_resp_value reply;
    size_t length = 0, end;
    enum pergidau_code code = PERGIDAU_INCOMPLETE;
    while (code == PERGIDAU_INCOMPLETE && length < sizeof got) {
        ssize_t came = recv(server, got + length, sizeof got - length, 0);
        if (came <= 0) {
            return PERGIDAU_INCOMPLETE;
        }
        length += (size_t)came;
        code = pergidau_resp_extent(&state, got, length, RESP2, &end);
    }
    if (code == PERGIDAU_DONE) {
        code = pergidau_resp_reply(got, end, RESP2, MOST_DEPTH, &reply);
    }
    if (code == PERGIDAU_DONE) {
        show(got, &reply);
    }
    return code;
}

int main(int count, char **arguments)
{
    char line[1 << 16];
    struct pergidau_bytes words[MOST_WORDS];
    struct sockaddr_in address = {0};
    size_t length;
    int server = socket(AF_INET, SOCK_STREAM, 0);
    address.sin_family = AF_INET;
    address.sin_port = htons((uint16_t)(count > 1 ? atoi(arguments[1]) : 6379));
    address.sin_addr.s_addr = htonl(INADDR_LOOPBACK);
    if (server < 0 || connect(server, (struct sockaddr *)&address, sizeof address)) {
        return fail("no connection");
    }
    while (fgets(line, sizeof line, stdin)) {
        enum pergidau_code code =
            pergidau_resp_command(words, split(line, words), sent, sizeof sent, &length);
        if (code == PERGIDAU_INVALID) {
            continue;
        }
        if (code != PERGIDAU_DONE || send(server, sent, length, 0) != (ssize_t)length) {
            return fail("the command is not sent");
        }
        if ((code = receive(server)) != PERGIDAU_DONE) {
            return fail(pergidau_message(code));
        }
    }
    close(server);
    return 0;
}
