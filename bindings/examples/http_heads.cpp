// Prints the heads of the HTTP/1.1 requests on standard input, which it takes one byte at a time:
//
//     http_heads < requests.http
//
// Each byte is scanned once, however it arrives, and each head is parsed once. Exits with 1 at an
// invalid head, or one that is not complete.
#include <iostream>
#include <string>
#include <vector>

#include "pergidau.hpp"

namespace http = pergidau;

// Prints a head. Returns where the request ends, if it is valid.
static http::result<pergidau_http_framing> show(std::string_view bytes)
{
    std::vector<pergidau_field> fields(4);
    auto head = http::http_head(bytes, fields);
    if (head.code == PERGIDAU_BUFFER_TOO_SMALL) {
        fields.resize(head->fields);
        head = http::http_head(bytes, fields);
    }
    fields.resize(head->fields);
    std::cout << http::text(bytes, head->method) << ' ' << http::text(bytes, head->target) << '\n';
    for (const pergidau_field &field : fields) {
        std::cout << "    " << http::text(bytes, field.name) << ": "
                  << http::text(bytes, field.value) << '\n';
    }
    return http::http_request_framing(bytes, fields, *head);
}

// Prints why the bytes are not a head.
static int fail(std::string_view bytes)
{
    const auto head = http::http_head(bytes, {});
    const auto place = *http::text_position(bytes, head->error_offset);
    std::cout << "line " << place.line << ", column " << place.column << ": "
              << http::http_head_error_message(head->error) << '\n';
    return 1;
}

int main()
{
    std::string held;
    pergidau_http_head_state state{};
    pergidau_http_body body{};
    for (char byte; std::cin.get(byte);) {
        if (body.length > 0) {
            body.length -= 1;
            continue;
        }
        held.push_back(byte);
        const auto end = http::http_head_extent(state, held);
        if (end.code == PERGIDAU_INCOMPLETE) {
            continue;
        }
        if (!end) {
            return fail(held);
        }
        const auto found = show(held);
        const bool is_chunked = found->body.kind == PERGIDAU_HTTP_BODY_CHUNKED;
        if (!found || is_chunked) {
            std::cout << (found ? "chunked body" : http::http_error_message(found->body.error))
                      << ' ' << http::text(held, found->rejected) << '\n';
            return 1;
        }
        body = found->body;
        held.clear();
        state = {};
    }
    return held.empty() ? 0 : fail(held);
}
