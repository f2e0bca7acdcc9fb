/* JSON readers with C++ libraries: rapidjson, whose headers are compiled here, and simdjson, which
 * uses the vector instructions of the processor. The kinds, numbered as in pergidau.h from 1 on, and
 * depths of values are compared, but not their texts; of decoded values the strings and numbers. */
#define RAPIDJSON_SSE42
#include <rapidjson/document.h>
#include <rapidjson/reader.h>
#include <simdjson.h>

#include "peers.h"

namespace {

struct Nothing : rapidjson::BaseReaderHandler<rapidjson::UTF8<>, Nothing> {};

uint64_t kind_of(const rapidjson::Value &value)
{
    switch (value.GetType()) {
    case rapidjson::kNullType: return 1;
    case rapidjson::kFalseType: return 2;
    case rapidjson::kTrueType: return 3;
    case rapidjson::kNumberType: return 4;
    case rapidjson::kStringType: return 5;
    case rapidjson::kArrayType: return 6;
    default: return 7;
    }
}

void count_values(const rapidjson::Value &value, uint64_t depth, outcome &out)
{
    out.count++;
    out.sum += kind_of(value) * depth;
    if (value.IsArray()) {
        for (const auto &it : value.GetArray()) {
            count_values(it, depth + 1, out);
        }
    } else if (value.IsObject()) {
        for (const auto &it : value.GetObject()) {
            count_values(it.value, depth + 1, out);
        }
    }
}

void count_values(simdjson::dom::element value, uint64_t depth, outcome &out)
{
    using simdjson::dom::element_type;
    uint64_t kind = 4;
    switch (value.type()) {
    case element_type::NULL_VALUE: kind = 1; break;
    case element_type::BOOL: kind = bool(value) ? 3 : 2; break;
    case element_type::STRING: kind = 5; break;
    case element_type::ARRAY:
        kind = 6;
        for (auto it : simdjson::dom::array(value)) {
            count_values(it, depth + 1, out);
        }
        break;
    case element_type::OBJECT:
        kind = 7;
        for (auto it : simdjson::dom::object(value)) {
            count_values(it.value, depth + 1, out);
        }
        break;
    default: break;
    }
    out.count++;
    out.sum += kind * depth;
}

/* Counts a document or a value in it, with the on-demand parser. Throws if the value is invalid. */
template <typename Value> void count_on_demand(Value &&value, uint64_t depth, outcome &out)
{
    using simdjson::ondemand::json_type;
    uint64_t kind = 0;
    switch (json_type(value.type())) {
    case json_type::null: kind = bool(value.is_null()) ? 1 : 0; break;
    case json_type::boolean: kind = bool(value.get_bool()) ? 3 : 2; break;
    case json_type::number:
        simdjson::ondemand::number(value.get_number());
        kind = 4;
        break;
    case json_type::string:
        std::string_view(value.get_string());
        kind = 5;
        break;
    case json_type::array:
        kind = 6;
        for (auto it : simdjson::ondemand::array(value.get_array())) {
            count_on_demand(it.value(), depth + 1, out);
        }
        break;
    case json_type::object:
        kind = 7;
        for (auto it : simdjson::ondemand::object(value.get_object())) {
            count_on_demand(it.value().value(), depth + 1, out);
        }
        break;
    }
    out.count++;
    out.sum += kind * depth;
}

void decode(const rapidjson::Value &value, outcome &out)
{
    if (value.IsString()) {
        add_text(out, {value.GetString(), value.GetStringLength()});
    } else if (value.IsInt64()) {
        add(out, (uint64_t)value.GetInt64());
    } else if (value.IsNumber()) {
        add_double(out, value.GetDouble());
    } else if (value.IsArray()) {
        for (const auto &it : value.GetArray()) {
            decode(it, out);
        }
    } else if (value.IsObject()) {
        for (const auto &it : value.GetObject()) {
            decode(it.value, out);
        }
    }
}

void decode(simdjson::dom::element value, outcome &out)
{
    using simdjson::dom::element_type;
    switch (value.type()) {
    case element_type::STRING: add_text(out, std::string_view(value)); break;
    case element_type::INT64: add(out, (uint64_t)int64_t(value)); break;
    case element_type::UINT64:
    case element_type::DOUBLE: add_double(out, double(value)); break;
    case element_type::ARRAY:
        for (auto it : simdjson::dom::array(value)) {
            decode(it, out);
        }
        break;
    case element_type::OBJECT:
        for (auto it : simdjson::dom::object(value)) {
            decode(it.value, out);
        }
        break;
    default: break;
    }
}

/* Decodes a document or a value in it, with the on-demand parser. Throws if the value is invalid. */
template <typename Value> void decode_on_demand(Value &&value, outcome &out)
{
    using simdjson::ondemand::json_type;
    switch (json_type(value.type())) {
    case json_type::null: (void)bool(value.is_null()); break;
    case json_type::boolean: (void)bool(value.get_bool()); break;
    case json_type::number: {
        const simdjson::ondemand::number number = value.get_number();
        if (number.is_int64()) {
            add(out, (uint64_t)number.get_int64());
        } else {
            add_double(out, number.as_double());
        }
        break;
    }
    case json_type::string: add_text(out, std::string_view(value.get_string())); break;
    case json_type::array:
        for (auto it : simdjson::ondemand::array(value.get_array())) {
            decode_on_demand(it.value(), out);
        }
        break;
    case json_type::object:
        for (auto it : simdjson::ondemand::object(value.get_object())) {
            decode_on_demand(it.value().value(), out);
        }
        break;
    }
}

/* The parser and its buffers are reused, as simdjson's documentation recommends. */
simdjson::dom::parser &kept()
{
    static simdjson::dom::parser parser;
    return parser;
}

/* Visits a document with the on-demand parser; there is no result if it is invalid. */
template <typename Visit> void on_demand(const char *text, size_t length, outcome &out, Visit visit)
{
    static simdjson::ondemand::parser parser;
    try {
        simdjson::padded_string_view view(text, length, length + simdjson::SIMDJSON_PADDING);
        simdjson::ondemand::document document = parser.iterate(view);
        visit(document, out);
    } catch (const simdjson::simdjson_error &) {
        out = outcome{0, 0};
    }
}

} // namespace

extern "C" {

PEER(check_by_rapidjson)
{
    (void)length;
    rapidjson::Reader reader;
    rapidjson::StringStream stream(text);
    Nothing nothing;
    out->count = !reader.Parse<rapidjson::kParseValidateEncodingFlag>(stream, nothing).IsError();
}

PEER(values_by_rapidjson)
{
    (void)length;
    rapidjson::Document document;
    if (!document.Parse(text).HasParseError()) {
        count_values(document, 1, *out);
    }
}

PEER(decoded_by_rapidjson)
{
    (void)length;
    rapidjson::Document document;
    if (!document.Parse(text).HasParseError()) {
        decode(document, *out);
    }
}

PEER(check_by_simdjson)
{
    out->count = kept().parse(text, length, false).error() == simdjson::SUCCESS;
}

PEER(values_by_simdjson)
{
    simdjson::dom::element value;
    if (kept().parse(text, length, false).get(value) == simdjson::SUCCESS) {
        count_values(value, 1, *out);
    }
}

PEER(decoded_by_simdjson)
{
    simdjson::dom::element value;
    if (kept().parse(text, length, false).get(value) == simdjson::SUCCESS) {
        decode(value, *out);
    }
}

PEER(values_on_demand_by_simdjson)
{
    on_demand(text, length, *out, [](auto &document, outcome &out) { count_on_demand(document, 1, out); });
}

PEER(decoded_on_demand_by_simdjson)
{
    on_demand(text, length, *out, [](auto &document, outcome &out) { decode_on_demand(document, out); });
}
}
