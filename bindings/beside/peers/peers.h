/* The result of a reader. It is the same for all readers of a text; the modules in src/ document it. */
#ifndef PEERS_H
#define PEERS_H

#include <stddef.h>
#include <stdint.h>

struct outcome {
    uint64_t count;
    uint64_t sum;
};

/* A reader of `length` bytes, which are followed by 64 zero bytes. */
#define PEER(name) void name(const char *text, size_t length, struct outcome *out)

#ifdef __cplusplus

#include <cstring>
#include <string_view>

inline void add(outcome &out, uint64_t sum)
{
    out.count++;
    out.sum += sum;
}

/* A decoded string: its length and its last byte. */
inline void add_text(outcome &out, std::string_view text)
{
    add(out, text.size() << 8 | (text.empty() ? 0 : (unsigned char)text.back()));
}

/* A double as the nearest float, since some readers do not return the nearest double. */
inline void add_double(outcome &out, double number)
{
    const float rounded = (float)number;
    uint32_t bits;
    std::memcpy(&bits, &rounded, sizeof bits);
    add(out, bits);
}

#endif

#endif
