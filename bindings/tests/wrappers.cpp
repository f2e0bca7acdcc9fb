// Calls each function of pergidau.hpp, with inputs and buffers of several types.
#include <array>
#include <cstdio>
#include <cstdlib>
#include <string>
#include <vector>
#ifdef __cpp_lib_span
#include <span>
#endif

#include "pergidau.hpp"

using namespace std::literals;
using pergidau::text;

static int line_of_fault = 0;

static void expect(bool holds, int line)
{
    line_of_fault = holds || line_of_fault ? line_of_fault : line;
}
#define EXPECT(test) expect(test, __LINE__)

// The conversions: text, containers of bytes, arrays, parts; and no others.
template <class From, class To>
constexpr bool converts = std::is_convertible_v<From, To>;
static_assert(converts<const char *, pergidau::input> && converts<std::string, pergidau::input>);
static_assert(converts<std::vector<std::byte>, pergidau::input>);
static_assert(converts<std::string &, pergidau::output> && converts<char (&)[4], pergidau::output>);
static_assert(!converts<std::string_view, pergidau::output>);
static_assert(!converts<const std::string &, pergidau::output>);
static_assert(!converts<std::vector<int> &, pergidau::output>);
static_assert(!converts<std::vector<bool>, pergidau::input> && !converts<int, pergidau::input>);
static_assert(!converts<std::vector<int> &, pergidau::view<unsigned>>);
static_assert(converts<pergidau::output, pergidau::input>);
static_assert(!converts<pergidau::input, pergidau::output>);

static void views()
{
    std::vector<unsigned char> bytes{'4', '2'};
    const std::array<std::byte, 1> digit{std::byte{'7'}};
    const char cut[8] = "1+1";
    EXPECT(pergidau::calc_value(bytes)->value == 42);
    EXPECT(pergidau::calc_value(digit)->value == 7);
    EXPECT(pergidau::calc_value(cut)->value == 2);
    EXPECT(pergidau::calc_value({bytes.data(), 1})->value == 4);
    EXPECT(pergidau::calc_value(std::string_view()).code == PERGIDAU_INVALID);
    EXPECT(pergidau::calc_value({nullptr, 1}).code == PERGIDAU_NULL);
    EXPECT(text(bytes) == "42" && text(bytes, {1, 1}) == "2" && pergidau::slice("").bytes);
    int sum = 0;
    for (unsigned char it : pergidau::output(bytes)) {
        sum += it - '0';
    }
    EXPECT(pergidau::calc_value("1\0"s).code == PERGIDAU_INVALID && !pergidau::calc_value("\xff"));
    EXPECT(sum == 6 && pergidau::input(bytes)[1] == '2' && pergidau::input().size() == 0);
#ifdef __cpp_lib_span
    EXPECT(pergidau::calc_value(std::span(bytes).first(1))->value == 4);
    EXPECT(std::span<const std::uint8_t>(pergidau::input(bytes)).size() == 2);
#endif
}

static void of_library()
{
    EXPECT(pergidau::version() == PERGIDAU_VERSION && pergidau::is_proved() == IS_PROVED);
    EXPECT(pergidau::abi_version() == PERGIDAU_ABI_VERSION);
    EXPECT(pergidau::message(PERGIDAU_DONE) == "success");
    EXPECT(pergidau::json_error_message(PERGIDAU_JSON_ERROR_VALUE) == "expected a value");
    EXPECT(pergidau::toml_error_message(PERGIDAU_TOML_ERROR_KEY) == "expected a key");
    EXPECT(pergidau::chunked_error_message(PERGIDAU_CHUNKED_ERROR_SIZE) == "expected a chunk size");
    EXPECT(pergidau::http_head_error_message(PERGIDAU_HTTP_HEAD_ERROR_METHOD)
           == "expected a method and a space");
    EXPECT(pergidau::http_error_message(PERGIDAU_HTTP_ERROR_HEAD) == "invalid head");
    EXPECT(pergidau::ini_error_message(PERGIDAU_INI_ERROR_EMPTY_SECTION) == "empty section name");
    EXPECT(pergidau::dns_error_message(PERGIDAU_DNS_ERROR_TOO_LONG) == "name too long");
    EXPECT(pergidau::text_position("a\nbc", 3)->column == 2);
}

static void csv_and_pairs()
{
    const pergidau_csv_dialect dialect{',', '"', PERGIDAU_CSV_LF};
    pergidau_csv_record_state state{};
    std::string buffer(16, '-');
    std::vector<pergidau_span> fields(2);
    auto [code, record] = pergidau::csv_record("a,\"b\"\"\"", dialect, buffer, fields);
    EXPECT(code == PERGIDAU_DONE && record.fields == 2 && text(buffer, fields[1]) == "b\"");
    EXPECT(pergidau::csv_record_partial("a", dialect, buffer, fields).code == PERGIDAU_INCOMPLETE);
    EXPECT(pergidau::csv_record_extent(state, "a\n", dialect)->length == 2);
    const pergidau_bytes parts[] = {pergidau::slice("a,"), pergidau::slice(std::string_view())};
    EXPECT(text(buffer, {0, *pergidau::csv_write(parts, dialect, buffer)}) == "\"a,\",\n");
    EXPECT(text("a=b", pergidau::pair_line("a=b")->value) == "b");
    pergidau_pair_entry entries[2];
    EXPECT(pergidau::pair_document("[s]\na=b", buffer, entries)->entries == 2);
    EXPECT(text(buffer, entries[1].value) == "b");
    pergidau_ini_state ini{};
    const auto python = PERGIDAU_INI_DIALECT_PYTHON;
    const std::string file = "[s]\na=b\n";
    EXPECT(text(file, pergidau::ini_next(ini, file, python)->key) == "s");
    EXPECT(text(file, pergidau::ini_get(ini, file, python, "s", "a")->value) == "b");
}

static void dns()
{
    const std::string header = "\1\2\x81\x80\0\1\0\1\0\0\0\0"s, question = "\1a\0\0\1\0\1"s;
    const std::string message = header + question + "\xc0\x0c\0\1\0\1\0\0\0\7\0\4\1\2\3\4"s;
    std::array<std::uint8_t, PERGIDAU_DNS_MAX_NAME> name{};
    EXPECT(pergidau::dns_message_header(message)->answer_count == 1);
    EXPECT(pergidau::dns_question_at(message, 12)->end == 19);
    const auto record = pergidau::dns_record_at(message, 19);
    EXPECT(record && record->time_to_live == 7 && text(message, record->span) == "\1\2\3\4");
    EXPECT(text(name, {0, pergidau::dns_name_at(message, 19, name)->length}) == "\1a\0"s);
}

static void http()
{
    const std::string request = "PUT /a HTTP/1.1\r\nHost: b\r\nContent-Length: 3\r\n\r\n";
    const std::string response = "HTTP/1.1 200 OK\r\nA: b\r\n\r\n", chunks = "1\r\na\r\n0\r\n\r\n";
    pergidau_field fields[4];
    const auto head = pergidau::http_head(request, fields);
    EXPECT(text(request, head->target) == "/a" && text(request, fields[0].value) == "b");
    EXPECT(*pergidau::http_field(request, {fields, head->fields}, "content-length") == 1);
    EXPECT(pergidau::http_head("PUT", fields).code == PERGIDAU_INVALID);
    EXPECT(pergidau::http_head_partial("PUT", fields).code == PERGIDAU_INCOMPLETE);
    EXPECT(pergidau::http_request_body(request)->length == 3);
    const auto framing = pergidau::http_request_framing(request, fields, *head);
    EXPECT(framing && framing->body.length == 3 && framing->persists);
    EXPECT(pergidau::http_response_body("GET", response)->kind == PERGIDAU_HTTP_BODY_UNTIL_CLOSE);
    const auto status = pergidau::http_response_head(response, fields);
    EXPECT(status->status == 200);
    EXPECT(!pergidau::http_response_framing("GET", response, fields, *status)->persists);
    EXPECT(pergidau::http_response_head("HTTP", fields).code == PERGIDAU_INVALID);
    EXPECT(pergidau::http_response_head_partial("HTTP", fields).code == PERGIDAU_INCOMPLETE);
    pergidau_http_head_state state{}, other{};
    EXPECT(*pergidau::http_head_extent(state, request) == request.size());
    EXPECT(*pergidau::http_response_head_extent(other, response) == response.size());
    EXPECT(pergidau::http_field_lines("A: b\r\n\r\n", fields)->fields == 1);
    EXPECT(pergidau::http_field_lines("A: b\r\n", fields).code == PERGIDAU_INCOMPLETE);
    pergidau_http_head_state trailers{};
    EXPECT(*pergidau::http_field_lines_extent(trailers, "A: b\r\n\r\n") == 8);
    pergidau_chunked_state body{};
    EXPECT(text(chunks, pergidau::http_chunked(body, chunks)->span) == "a");
}

static void json_and_toml()
{
    char buffer[8];
    std::vector<pergidau_json_node> nodes(8);
    std::vector<pergidau_toml_node> tables(8);
    EXPECT(pergidau::json_check("[1]", 1) == PERGIDAU_DONE);
    EXPECT(*pergidau::json_value("[1], 2", 1) == 3);
    EXPECT(pergidau::json_next(" true", 1)->kind == PERGIDAU_JSON_TRUE);
    EXPECT(pergidau::json_decimal("-1.50")->digits == 15);
    EXPECT(pergidau::json_diagnose("[1,]", 1)->error == PERGIDAU_JSON_ERROR_VALUE);
    EXPECT(*pergidau::json_integer("-5") == -5 && *pergidau::json_natural("5") == 5);
    EXPECT(*pergidau::json_member("{\"a/b\": 1}", 1, "a~1b", true) == 6);
    EXPECT(pergidau::json_pointer("{\"a/b\": [1]}", 2, "/a~1b/0")->span.offset == 9);
    EXPECT(*pergidau::json_nodes("{\"a\": [1]}", 2, nodes) == 4 && nodes[1].next == 2);
    EXPECT(*pergidau::json_node_member("{\"a\": [1]}", nodes, 0, "a", false) == 2);
    EXPECT(*pergidau::json_node_element(nodes, 2, 0) == 3);
    EXPECT(pergidau::json_step("[1]")->kind == PERGIDAU_JSON_BEGIN_ARRAY);
    EXPECT(pergidau::json_string("\"\\u0061\"", buffer)->text == 1 && buffer[0] == 'a');
    EXPECT(*pergidau::json_write_string("a\"\n", buffer) == 7);
    pergidau_json_value_state state{};
    EXPECT(*pergidau::json_extent(state, " [1] 2", 0, buffer) == 4);
    EXPECT(*pergidau::json_extent(state, " 2", 1, buffer) == 2);
    EXPECT(pergidau::json_extent(state, "[1", 0, buffer).code == PERGIDAU_INCOMPLETE);
    EXPECT(pergidau::toml_document("a = 7", 4, buffer, tables) && tables[1].value.integer == 7);
    const std::array<pergidau_bytes, 1> names{pergidau::slice("a")};
    EXPECT(*pergidau::toml_find(buffer, tables, 0, names) == 1);
    EXPECT(pergidau::toml_find(buffer, tables, 1, names).code == PERGIDAU_END);
    EXPECT(pergidau::toml_date_time("1979-05-27")->day == 27);
    EXPECT(*pergidau::toml_nanosecond("05") == 50000000);
    EXPECT(*pergidau::text_double("-2.5e1") == -25 && !pergidau::text_double("x"));
}

static void resp()
{
    std::vector<char> buffer(32);
    const std::string key = "a";
    const std::vector<pergidau_bytes> parts{pergidau::slice("GET"), pergidau::slice(key)};
    auto length = pergidau::resp_command(parts, buffer);
    EXPECT(text(buffer, {0, *length}) == "*2\r\n$3\r\nGET\r\n$1\r\na\r\n");
    length = pergidau::resp_command(std::array{pergidau::slice(std::string_view())}, buffer);
    EXPECT(text(buffer, {0, *length}) == "*1\r\n$0\r\n\r\n");
    EXPECT(pergidau::resp_reply(":7\r\n", 2, 0)->number == 7);
    EXPECT(pergidau::resp_reply(":7", 2, 0).code == PERGIDAU_INVALID);
    EXPECT(pergidau::resp_reply_partial(":7", 2, 0).code == PERGIDAU_INCOMPLETE);
    pergidau_resp_reply_state state{};
    EXPECT(*pergidau::resp_extent(state, ":7\r\n+", 2) == 4);
    std::vector<pergidau_resp_node> nodes(4);
    EXPECT(pergidau::resp_nodes("*1\r\n:7\r\n+", 2, 1, nodes)->count == 2 && nodes[1].number == 7);
}

int main()
{
    views();
    of_library();
    csv_and_pairs();
    dns();
    http();
    json_and_toml();
    resp();
    if (line_of_fault) {
        std::printf("tests/wrappers.cpp, line %d\n", line_of_fault);
    }
    return line_of_fault ? EXIT_FAILURE : EXIT_SUCCESS;
}
