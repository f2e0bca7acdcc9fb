/* A TOML reader with toml++, whose headers are compiled here. The kinds, numbered as in pergidau.h
 * from 1 on, and depths of values are compared; of decoded values strings, numbers and dates. */
#include <toml++/toml.h>

#include "peers.h"

namespace {

uint64_t kind_of(const toml::node &node)
{
    switch (node.type()) {
    case toml::node_type::table: return 1;
    case toml::node_type::array: return 2;
    case toml::node_type::string: return 3;
    case toml::node_type::integer: return 4;
    case toml::node_type::floating_point: return 5;
    case toml::node_type::boolean: return 6;
    case toml::node_type::date_time: return node.as_date_time()->get().offset ? 7 : 8;
    case toml::node_type::date: return 9;
    case toml::node_type::time: return 10;
    default: return 0;
    }
}

void count_values(const toml::node &node, uint64_t depth, outcome &out)
{
    out.count++;
    out.sum += kind_of(node) * depth;
    if (const toml::array *list = node.as_array()) {
        for (const toml::node &it : *list) {
            count_values(it, depth + 1, out);
        }
    } else if (const toml::table *table = node.as_table()) {
        for (const auto &[name, it] : *table) {
            (void)name;
            count_values(it, depth + 1, out);
        }
    }
}

void decode(const toml::node &node, outcome &out)
{
    const auto add_date = [&](toml::date it) { add(out, it.year << 9 | it.month << 5 | it.day); };
    const auto add_time = [&](toml::time it) { add(out, it.hour << 12 | it.minute << 6 | it.second); };
    if (const auto *text = node.as_string()) {
        add_text(out, text->get());
    } else if (const auto *number = node.as_integer()) {
        add(out, (uint64_t)number->get());
    } else if (const auto *number = node.as_floating_point()) {
        add_double(out, number->get());
    } else if (const auto *both = node.as_date_time()) {
        add_date(both->get().date);
        add_time(both->get().time);
    } else if (const auto *date = node.as_date()) {
        add_date(date->get());
    } else if (const auto *time = node.as_time()) {
        add_time(time->get());
    } else if (const toml::array *list = node.as_array()) {
        for (const toml::node &it : *list) {
            decode(it, out);
        }
    } else if (const toml::table *table = node.as_table()) {
        for (const auto &[name, it] : *table) {
            (void)name;
            decode(it, out);
        }
    }
}

} // namespace

extern "C" PEER(document_by_tomlplusplus)
{
    try {
        count_values(toml::parse(std::string_view(text, length)), 1, *out);
    } catch (const toml::parse_error &) {
        *out = outcome{0, 0};
    }
}

extern "C" PEER(decoded_by_tomlplusplus)
{
    try {
        decode(toml::parse(std::string_view(text, length)), *out);
    } catch (const toml::parse_error &) {
        *out = outcome{0, 0};
    }
}
