/* Random inputs, and memory next to pages that cannot be read, for `fuzz.c`. */
#ifndef INPUTS_H
#define INPUTS_H

#include <stdint.h>
#include <stdlib.h>
#include <string.h>
#include <sys/mman.h>

enum { PAGES = 2 };

static size_t page;
/* Two memory regions, each between two pages that cannot be read: for the input and for buffers. */
static uint8_t *input_room, *buffer_room;
static uint64_t generator;

static uint64_t random_number(void)
{
    generator ^= generator << 13;
    generator ^= generator >> 7;
    generator ^= generator << 17;
    return generator * 0x2545F4914F6CDD1Du;
}

static size_t below(size_t end)
{
    return (size_t)(random_number() % end);
}

static uint8_t *room(void)
{
    uint8_t *start = mmap(NULL, (PAGES + 2) * page, PROT_NONE, MAP_PRIVATE | MAP_ANONYMOUS, -1, 0);
    if (start == MAP_FAILED || mprotect(start + page, PAGES * page, PROT_READ | PROT_WRITE)) {
        exit(2);
    }
    return start + page;
}

static const char *const seeds[] = {
    " 2 + 3 * 4 ^ 5 ! - -7 % 3 = 1",
    "9223372036854775807 + 1",
    "2 ^ 3 ^ 2",
    "key=value\n",
    "a=\xc3\xa9;b c\t=",
    "[a]\nx = 1 ; one\r\n\n",
    "; c\n[]\n[b c]x=2\nx=\xc3\xa9",
    "[a]\n  b = c\n    d\n\n  # e\n   f: g\n",
    "\xef\xbb\xbf# a\n[b]\nc\nd = e ;f\n[g]h\n=i\n",
    ", 1 ]",
    "{\"a\": [1, -2.5e3, true, {\"b\": null}], \"\\u00e9\\n\": \"x\"} ",
    "[[[[[[]]]]]]",
    "[\"\\\"\", 0.1E-7, false]",
    "a,\"b \"\"c\"\"\",\r\n\"d\ne\",f\r\n",
    "GET /hello.txt HTTP/1.1\r\nUser-Agent: curl/7.64.1\r\nHost: www.example.com\r\n\r\n",
    "+OK\r\n:-12\r\n$-1\r\n",
    "*3\r\n$3\r\nfoo\r\n*1\r\n:7\r\n*-1\r\n+",
    "$6\r\nfoo\r\n*\r\n-ERR x\r\n",
    "4\r\nWiki\r\n5;a=\"b\"\r\npedia\r\n0\r\nA: b\r\n\r\nrest",
    "1\r\na\r\n2 ; c = d\r\n\r\n\r\n00\r\n\r\n",
    "PUT /x HTTP/1.0\r\nX: 1\r\nX:\t2 \r\nY:\r\nZ: \t \r\n\r\nbody",
    "POST / HTTP/1.1\r\nHost: a\r\nContent-Length: 5, 5\r\n\r\nhello",
    "POST / HTTP/1.1\r\nHost: a\r\nContent-Length: 05\r\nContent-Length:\t05 \r\n\r\n",
    "POST / HTTP/1.1\r\nHost: a\r\nTransfer-Encoding: gzip, Chunked\r\n\r\n0\r\n\r\n",
    "POST / HTTP/1.1\r\nHost: a\r\nTransfer-Encoding: chunked ;a=b, chunked\r\n\r\n",
    "PUT a:/%41 HTTP/1.1\r\nHost: [::1]:80\r\nTransfer-Encoding: a;b=\",\\\"\", chunked\r\n\r\n",
    "CONNECT a:80 HTTP/1.1\r\nHost: %41:\r\n\r\n",
    "POST / HTTP/1.0\r\nTransfer-Encoding: ,chunked,\r\nContent-Length: 5\r\n\r\n",
    "GET / HTTP/1.1\r\nHost: a\r\nHost: b\r\nConnection: te, close\r\nX: y\r\n\r\n",
    "GET / HTTP/1.0\r\nHost: a b\r\nConnection: Keep-Alive ,te\r\nConnection: close\r\n\r\n",
    "HTTP/1.1 404 Not Found, and no other page\r\nServer: a\r\nX: \t \r\n\r\nbody",
    "HTTP/1.0 200\r\nA:b\r\n\r\n",
    "a = 1\nb.c = [1, {d = 2.5}, [], \"x\\u00e9\"]\n",
    "[a.b]\nc = ''\n[[d]]\ne = 1979-05-27T07:32:00.5Z\n[[d]]\nf = true # g\n",
    "[[p]]\n[p.q]\n[[p.r]]\n\n[[p]]\nn.m = 0x1F\nn.o = 07:32:00\n",
};
enum { SEEDS = sizeof seeds / sizeof *seeds };

static const char inserted[] = "0123456789+-*/%^!= \t\r\n:;,\"\\[]{}$eEntfu.GETHTTP/1.\xff\xc3\x80";

/* Fills the bytes at random, or from parts of seeds with some bytes changed. */
static size_t fill(uint8_t *bytes, size_t most)
{
    size_t length = 0, parts = 1 + below(3);
    if (below(8) == 0) {
        length = below(most < 64 ? most : 64);
        for (size_t i = 0; i < length; i++) {
            bytes[i] = (uint8_t)random_number();
        }
        return length;
    }
    for (size_t part = 0; part < parts; part++) {
        const char *seed = seeds[below(SEEDS)];
        size_t size = strlen(seed), from = below(4) ? 0 : below(size), count = size - from;
        if (below(3) == 0) {
            count = below(count + 1);
        }
        if (count > most - length) {
            break;
        }
        memcpy(bytes + length, seed + from, count);
        length += count;
        if (below(2)) {
            break;
        }
    }
    for (size_t turns = below(2) ? below(4) : 0; turns > 0 && length > 0; turns--) {
        bytes[below(length)] = (uint8_t)inserted[below(sizeof inserted - 1)];
    }
    return length;
}

#endif
