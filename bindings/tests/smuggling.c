/* Requests to the example server, in chunks of several sizes: `smuggling PROGRAM`. Requests that two
 * servers may split differently must be rejected, and nothing after them may be served. Exits with 1 if
 * a row differs. */
#include <stdio.h>
#include <stdlib.h>
#include <string.h>
#include <sys/socket.h>
#include <sys/wait.h>
#include <unistd.h>

#define HOST "Host: a\r\n"
#define POST "POST /echo HTTP/1.1\r\n" HOST
/* The request that must not be served after an ambiguous one. */
#define HIDDEN "GET /hello HTTP/1.1\r\n" HOST "\r\n"
#define CHUNKED POST "Transfer-Encoding: chunked\r\n\r\n"

/* The input, and for each response the status code and the body in brackets, if it is not an error. */
static const struct {
    const char *input, *responses;
} rows[] = {
    /* Valid requests, with both kinds of bodies, in sequence. */
    {"GET /hello HTTP/1.1\r\nHost: a\r\n\r\n" HIDDEN, "200[hello\n] 200[hello\n]"},
    {"\r\n" HIDDEN, "200[hello\n]"},
    {POST "Content-Length: 5\r\n\r\nhello" HIDDEN, "200[hello] 200[hello\n]"},
    {POST "content-length: 28\r\n\r\nGET /hello HTTP/1.1\r\nHost: a" HIDDEN,
     "200[GET /hello HTTP/1.1\r\nHost: a] 200[hello\n]"},
    {POST "Content-Length: 5, 5\r\n\r\nhello" HIDDEN, "200[hello] 200[hello\n]"},
    {POST "Content-Length: 5\r\nContent-Length: 5\r\n\r\nhello" HIDDEN, "200[hello] 200[hello\n]"},
    {POST "Content-Length: \t5 \r\n\r\nhello" HIDDEN, "200[hello] 200[hello\n]"},
    {POST "Content-Length: 0\r\n\r\n" HIDDEN, "200[] 200[hello\n]"},
    {POST "\r\n" HIDDEN, "200[] 200[hello\n]"},
    {CHUNKED "5\r\nhello\r\n0\r\n\r\n" HIDDEN, "200[hello] 200[hello\n]"},
    {CHUNKED "2\r\nhe\r\n03;a=b;c=\"\\\"\r\"\r\nllo\r\n0\r\n\r\n" HIDDEN, "400"},
    {CHUNKED "2\r\nhe\r\n03 ; a=b;c=\"d;e\"\r\nllo\r\n0\r\n\r\n" HIDDEN, "200[hello] 200[hello\n]"},
    {CHUNKED "5\r\nhello\r\n0\r\nX: GET / HTTP/1.1\r\n\r\n" HIDDEN, "200[hello] 200[hello\n]"},
    {POST "transfer-encoding: Chunked\r\n\r\n1\r\nx\r\n0\r\n\r\n" HIDDEN, "200[x] 200[hello\n]"},
    {POST "Transfer-Encoding:\r\nTransfer-Encoding: chunked\r\n\r\n0\r\n\r\n" HIDDEN, "501"},
    {"GET /none HTTP/1.1\r\n" HOST "Connection: close\r\n\r\n" HIDDEN, "404"},
    {"GET /hello HTTP/1.0\r\n\r\n" HIDDEN, "200[hello\n]"},
    {"GET /hello HTTP/1.0\r\nConnection: te,Keep-Alive\r\n\r\n" HIDDEN, "200[hello\n] 200[hello\n]"},
    {"GET /hello HTTP/1.1\r\n" HOST "Connection: te\r\nConnection: x, Close\r\n\r\n" HIDDEN, "200[hello\n]"},
    /* Both a length and a coding. */
    {POST "Content-Length: 4\r\nTransfer-Encoding: chunked\r\n\r\n0\r\n\r\n" HIDDEN, "400"},
    {POST "Transfer-Encoding: chunked\r\nContent-Length: 4\r\n\r\n0\r\n\r\n" HIDDEN, "400"},
    {POST "Content-Length: 0\r\nTransfer-Encoding: chunked\r\n\r\n0\r\n\r\n" HIDDEN, "400"},
    {POST "Content-Length: 5\r\nTransfer-Encoding: identity\r\n\r\nhello" HIDDEN, "400"},
    {POST "Content-Length: 5\r\nTransfer-Encoding:\r\n\r\nhello" HIDDEN, "400"},
    {POST "Content-Length: 5\r\nTransfer-Encoding: xchunked\r\n\r\nhello" HIDDEN, "400"},
    {POST "Content-Length:\r\nTransfer-Encoding: chunked\r\n\r\n0\r\n\r\n" HIDDEN, "400"},
    {POST "content-LENGTH: 5\r\ntransfer-ENCODING: chunked\r\n\r\nhello" HIDDEN, "400"},
    /* Codings. */
    {POST "Transfer-Encoding: chunked\r\nTransfer-Encoding: chunked\r\n\r\n0\r\n\r\n" HIDDEN, "400"},
    {POST "Transfer-Encoding: chunked, chunked\r\n\r\n0\r\n\r\n" HIDDEN, "400"},
    {POST "Transfer-Encoding: chunked\r\nTransfer-Encoding: identity\r\n\r\n0\r\n\r\n" HIDDEN, "400"},
    {POST "Transfer-Encoding: identity\r\nTransfer-Encoding: chunked\r\n\r\n0\r\n\r\n" HIDDEN, "501"},
    {POST "Transfer-Encoding: chunked, identity\r\n\r\n0\r\n\r\n" HIDDEN, "400"},
    {POST "Transfer-Encoding: identity\r\n\r\n0\r\n\r\n" HIDDEN, "400"},
    {POST "Transfer-Encoding: gzip\r\n\r\n0\r\n\r\n" HIDDEN, "400"},
    {POST "Transfer-Encoding: gzip, chunked\r\n\r\n0\r\n\r\n" HIDDEN, "501"},
    {POST "Transfer-Encoding:\r\n\r\n0\r\n\r\n" HIDDEN, "400"},
    {POST "Transfer-Encoding: ,\r\n\r\n0\r\n\r\n" HIDDEN, "400"},
    {POST "Transfer-Encoding: ,chunked\r\n\r\n0\r\n\r\n" HIDDEN, "501"},
    {POST "Transfer-Encoding: chunked;a=b\r\n\r\n0\r\n\r\n" HIDDEN, "400"},
    {POST "Transfer-Encoding: \"chunked\"\r\n\r\n0\r\n\r\n" HIDDEN, "400"},
    {POST "Transfer-Encoding: xchunked\r\n\r\n0\r\n\r\n" HIDDEN, "400"},
    {POST "Transfer-Encoding: chunkedx\r\n\r\n0\r\n\r\n" HIDDEN, "400"},
    {POST "Transfer-Encoding: x chunked\r\n\r\n0\r\n\r\n" HIDDEN, "400"},
    /* Codings by their grammar: the first row is valid. */
    {POST "Transfer-Encoding: x;a=\",chunked,\", chunked\r\n\r\n0\r\n\r\n" HIDDEN, "501"},
    {POST "Transfer-Encoding: x;a=\"b,chunked\r\n\r\n0\r\n\r\n" HIDDEN, "400"},
    {POST "Transfer-Encoding: \", chunked\r\n\r\n0\r\n\r\n" HIDDEN, "400"},
    {POST "Transfer-Encoding: @, chunked\r\n\r\n0\r\n\r\n" HIDDEN, "400"},
    {POST "Transfer-Encoding: a b, chunked\r\n\r\n0\r\n\r\n" HIDDEN, "400"},
    {POST "Transfer-Encoding: x;a, chunked\r\n\r\n0\r\n\r\n" HIDDEN, "400"},
    {POST "Transfer-Encoding: x;a=\"\\\", chunked\r\n\r\n0\r\n\r\n" HIDDEN, "400"},
    {POST "Transfer-Encoding: chunked\x80\r\n\r\n0\r\n\r\n" HIDDEN, "400"},
    {POST "Transfer-Encoding: \vchunked\r\n\r\n0\r\n\r\n" HIDDEN, "400"},
    {POST "Transfer-Encoding: chunked\f\r\n\r\n0\r\n\r\n" HIDDEN, "400"},
    {"POST /echo HTTP/1.0\r\n" HOST "Transfer-Encoding: chunked\r\n\r\n0\r\n\r\n" HIDDEN, "400"},
    {"POST /echo HTTP/0.9\r\n" HOST "Transfer-Encoding: chunked\r\n\r\n0\r\n\r\n" HIDDEN, "400"},
    {"POST /echo HTTP/1.0\r\nContent-Length: 5\r\nTransfer-Encoding: chunked\r\n\r\n" HIDDEN, "400"},
    /* Lengths. */
    {POST "Content-Length: 5\r\nContent-Length: 6\r\n\r\nhello" HIDDEN, "400"},
    {POST "Content-Length: 5\r\nContent-Length: 05\r\n\r\nhello" HIDDEN, "400"},
    {POST "Content-Length: 5\r\nContent-Length:\r\n\r\nhello" HIDDEN, "400"},
    {POST "Content-Length: 5, 6\r\n\r\nhello" HIDDEN, "400"},
    {POST "Content-Length: ,5\r\n\r\nhello" HIDDEN, "400"},
    {POST "Content-Length: 5,\r\n\r\nhello" HIDDEN, "400"},
    {POST "Content-Length: +5\r\n\r\nhello" HIDDEN, "400"},
    {POST "Content-Length: -5\r\n\r\nhello" HIDDEN, "400"},
    {POST "Content-Length: 0x5\r\n\r\nhello" HIDDEN, "400"},
    {POST "Content-Length: 5x\r\n\r\nhello" HIDDEN, "400"},
    {POST "Content-Length: 5.0\r\n\r\nhello" HIDDEN, "400"},
    {POST "Content-Length: 1e1\r\n\r\nhello" HIDDEN, "400"},
    {POST "Content-Length: 1 5\r\n\r\nhello" HIDDEN, "400"},
    {POST "Content-Length: 1_5\r\n\r\nhello" HIDDEN, "400"},
    {POST "Content-Length: 5;a=b\r\n\r\nhello" HIDDEN, "400"},
    {POST "Content-Length: \"5\"\r\n\r\nhello" HIDDEN, "400"},
    {POST "Content-Length: \xd9\xa5\r\n\r\nhello" HIDDEN, "400"},
    {POST "Content-Length: \v5\r\n\r\nhello" HIDDEN, "400"},
    {POST "Content-Length:\r\n\r\nhello" HIDDEN, "400"},
    {POST "Content-Length: five\r\n\r\nhello" HIDDEN, "400"},
    {POST "Content-Length: 18446744073709551616\r\n\r\n" HIDDEN, "400"},
    {POST "Content-Length: 18446744073709551621\r\n\r\nhello" HIDDEN, "400"},
    {POST "Content-Length: 4294967301\r\n\r\nhello" HIDDEN, "413"},
    {POST "Content-Length: 5000\r\n\r\nhello" HIDDEN, "413"},
    /* Field lines. */
    {POST "Content-Length : 5\r\n\r\nhello" HIDDEN, "400"},
    {POST "Content-Length\t: 5\r\n\r\nhello" HIDDEN, "400"},
    {POST "Transfer-Encoding : chunked\r\n\r\n0\r\n\r\n" HIDDEN, "400"},
    {POST " Content-Length: 5\r\n\r\nhello" HIDDEN, "400"},
    {POST "\tContent-Length: 5\r\n\r\nhello" HIDDEN, "400"},
    {POST "X: y\r\n Content-Length: 5\r\n\r\nhello" HIDDEN, "400"},
    {POST "Transfer-Encoding:\r\n chunked\r\n\r\n0\r\n\r\n" HIDDEN, "400"},
    {POST "X: y\nContent-Length: 5\r\n\r\nhello" HIDDEN, "400"},
    {POST "X: y\rContent-Length: 5\r\n\r\nhello" HIDDEN, "400"},
    {POST "X: y\r\r\nContent-Length: 5\r\n\r\nhello" HIDDEN, "400"},
    {POST "Content-Length: 5\n\r\nhello" HIDDEN, "400"},
    {POST "Content-Length: 5\r\n\nhello" HIDDEN, "400"},
    {POST "Content-Length: 5\r\rhello" HIDDEN, "400"},
    {POST "Content-Length 5\r\n\r\nhello" HIDDEN, "400"},
    {POST ": 5\r\n\r\nhello" HIDDEN, "400"},
    {POST "Content_Length: 5\r\n\r\n" HIDDEN, "200[] 200[hello\n]"},
    {POST "Content-Length\xc2\xa0: 5\r\n\r\nhello" HIDDEN, "400"},
    {POST "\"Content-Length\": 5\r\n\r\nhello" HIDDEN, "400"},
    /* The request line and Host. */
    {"GET /hello HTTP/1.1\r\n\r\n" HIDDEN, "400"},
    {"GET /hello HTTP/1.1\r\nHost: a\r\nHost: b\r\n\r\n" HIDDEN, "400"},
    {"GET /hello HTTP/1.1\r\nHost: a\r\nhost: a\r\n\r\n" HIDDEN, "400"},
    {"GET /hello HTTP/1.1\r\nHost:\r\n\r\n" HIDDEN, "200[hello\n] 200[hello\n]"},
    {"GET /hello HTTP/1.1\r\nHost: [::1]:80\r\n\r\n" HIDDEN, "200[hello\n] 200[hello\n]"},
    {"GET /hello HTTP/1.1\r\nHost: a, b\r\n\r\n" HIDDEN, "400"},
    {"GET /hello HTTP/1.1\r\nHost: a/b@c d\r\n\r\n" HIDDEN, "400"},
    {"GET /hello HTTP/1.1\r\nHost: a@b\r\n\r\n" HIDDEN, "400"},
    {"GET /hello HTTP/1.1\r\nHost: a:b\r\n\r\n" HIDDEN, "400"},
    {"GET /hello HTTP/1.1\r\nHost: [::1\r\n\r\n" HIDDEN, "400"},
    {"GET http://a/hello HTTP/1.1\r\nHost: a\r\nConnection: close\r\n\r\n" HIDDEN, "404"},
    {"GET /hello#b HTTP/1.1\r\nHost: a\r\n\r\n" HIDDEN, "400"},
    {"GET hello HTTP/1.1\r\nHost: a\r\n\r\n" HIDDEN, "400"},
    {"GET /%hello HTTP/1.1\r\nHost: a\r\n\r\n" HIDDEN, "400"},
    {"GET http://a@b/hello HTTP/1.1\r\nHost: a\r\n\r\n" HIDDEN, "400"},
    {"GET * HTTP/1.1\r\nHost: a\r\n\r\n" HIDDEN, "400"},
    {"CONNECT /hello HTTP/1.1\r\nHost: a\r\n\r\n" HIDDEN, "400"},
    {"GET /hello HTTP/2.0\r\nHost: a\r\n\r\n" HIDDEN, "505"},
    {"GET /hello HTTP/1.10\r\nHost: a\r\n\r\n" HIDDEN, "400"},
    {"GET /hello http/1.1\r\nHost: a\r\n\r\n" HIDDEN, "400"},
    {"GET /hello\r\n" HIDDEN, "400"},
    {"GET  /hello HTTP/1.1\r\nHost: a\r\n\r\n" HIDDEN, "400"},
    {"GET /hello  HTTP/1.1\r\nHost: a\r\n\r\n" HIDDEN, "400"},
    {"GET\t/hello HTTP/1.1\r\nHost: a\r\n\r\n" HIDDEN, "400"},
    {" GET /hello HTTP/1.1\r\nHost: a\r\n\r\n" HIDDEN, "400"},
    {"GET /hello HTTP/1.1 \r\nHost: a\r\n\r\n" HIDDEN, "400"},
    {"GET /hello HTTP/1.1\nHost: a\n\n" HIDDEN, "400"},
    {"\n" HIDDEN, "400"},
    {"\r\n\r\n" HIDDEN, "400"},
    /* Chunked bodies: the response to the body is an error, and nothing follows. */
    {CHUNKED "5\nhello\r\n0\r\n\r\n" HIDDEN, "400"},
    {CHUNKED "5\r\nhello\n0\r\n\r\n" HIDDEN, "400"},
    {CHUNKED "5\r\nhello0\r\n\r\n" HIDDEN, "400"},
    {CHUNKED "5\r\nhellox\r\n0\r\n\r\n" HIDDEN, "400"},
    {CHUNKED "5;a\nhello\r\n0\r\n\r\n" HIDDEN, "400"},
    {CHUNKED "5;a=\n\r\nhello\r\n0\r\n\r\n" HIDDEN, "400"},
    {CHUNKED "5;\r\nhello\r\n0\r\n\r\n" HIDDEN, "400"},
    {CHUNKED "5;a=\"\n\"\r\nhello\r\n0\r\n\r\n" HIDDEN, "400"},
    {CHUNKED "+5\r\nhello\r\n0\r\n\r\n" HIDDEN, "400"},
    {CHUNKED "-5\r\nhello\r\n0\r\n\r\n" HIDDEN, "400"},
    {CHUNKED "0x5\r\nhello\r\n0\r\n\r\n" HIDDEN, "400"},
    {CHUNKED "5h\r\nhello\r\n0\r\n\r\n" HIDDEN, "400"},
    {CHUNKED "5_0\r\nhello\r\n0\r\n\r\n" HIDDEN, "400"},
    {CHUNKED " 5\r\nhello\r\n0\r\n\r\n" HIDDEN, "400"},
    {CHUNKED "5 \r\nhello\r\n0\r\n\r\n" HIDDEN, "400"},
    {CHUNKED "\r\nhello\r\n0\r\n\r\n" HIDDEN, "400"},
    {CHUNKED "10000000000000005\r\nhello\r\n0\r\n\r\n" HIDDEN, "400"},
    {CHUNKED "ffffffffffffffff\r\nhello\r\n0\r\n\r\n" HIDDEN, ""},
    {CHUNKED "5\r\nhello\r\n0\r\n\n" HIDDEN, "400"},
    {CHUNKED "5\r\nhello\r\n0\r\nX : y\r\n\r\n" HIDDEN, "400"},
    {CHUNKED "5\r\nhello\r\n0\r\n X: y\r\n\r\n" HIDDEN, "400"},
    {CHUNKED "5\r\nhello\r\n0\r\nX: y\n\r\n" HIDDEN, "400"},
    {CHUNKED "5\r\nhello\r\n0\r\r\n\r\n" HIDDEN, "400"},
    /* The input ends within a request. */
    {POST "Content-Length: 5\r\n\r\nhell", ""},
    {CHUNKED "5\r\nhello\r\n0\r\n", ""},
    {"GET /hello HTTP/1.1\r\nHo", ""},
};

enum { MOST = 16384 };
static const size_t sizes[] = {1, 3, 7, 1000};

/* Runs the server with an input in chunks, and returns what it sends. */
static size_t serve(const char *program, const char *input, size_t piece, char *sent)
{
    int ends[2], status = 0;
    size_t length = strlen(input), got = 0;
    if (socketpair(AF_UNIX, SOCK_STREAM, 0, ends)) {
        exit(2);
    }
    pid_t server = fork();
    if (server == 0) {
        dup2(ends[1], STDIN_FILENO);
        dup2(ends[1], STDOUT_FILENO);
        close(ends[0]);
        close(ends[1]);
        execl(program, program, (char *)NULL);
        _exit(2);
    }
    close(ends[1]);
    for (size_t at = 0; at < length; at += piece) {
        size_t now = length - at < piece ? length - at : piece;
        /* (the server may have ended the connection) */
        if (send(ends[0], input + at, now, MSG_NOSIGNAL) != (ssize_t)now) {
            break;
        }
    }
    shutdown(ends[0], SHUT_WR);
    for (ssize_t now; (now = read(ends[0], sent + got, MOST - 1 - got)) > 0;) {
        got += (size_t)now;
    }
    close(ends[0]);
    if (server < 0 || waitpid(server, &status, 0) != server || status != 0) {
        printf("the server fails\n");
        exit(1);
    }
    sent[got] = 0;
    return got;
}

/* Writes the status code of each response, and the body if it is not an error. */
static void summarize(const char *sent, char *into)
{
    *into = 0;
    for (const char *rest = sent; *rest;) {
        const char *length = strstr(rest, "Content-Length: "), *body = strstr(rest, "\r\n\r\n");
        if (length == NULL || body == NULL) {
            strcpy(into, "no response");
            return;
        }
        size_t size = strtoul(length + strlen("Content-Length: "), NULL, 10);
        into += sprintf(into, "%s%.3s", rest == sent ? "" : " ", rest + strlen("HTTP/1.1 "));
        if (rest[strlen("HTTP/1.1 ")] == '2') {
            into += sprintf(into, "[%.*s]", (int)size, body + 4);
        }
        rest = body + 4 + size;
    }
}

int main(int count, char **words)
{
    int wrong = count != 2;
    size_t tested = 0;
    for (size_t i = 0; i < sizeof rows / sizeof *rows && count == 2; i++) {
        for (size_t j = 0; j < sizeof sizes / sizeof *sizes; j++) {
            static char sent[MOST], shown[MOST];
            serve(words[1], rows[i].input, sizes[j], sent);
            summarize(sent, shown);
            if (strcmp(shown, rows[i].responses)) {
                printf("pieces of %zu: %s: got %s, want %s\n", sizes[j], rows[i].input, shown,
                       rows[i].responses);
                wrong = 1;
            }
            tested++;
        }
    }
    printf("%zu connections to the example server\n", tested);
    return wrong;
}
