//! The workloads, and the readers of each.
use crate::text::{Outcome, Text};
use crate::{csv, http, ini, json, peers, resp, toml};

pub type Reader = fn(&Text) -> Outcome;

/// A workload: its name, its input file, and its readers, this library's first.
pub struct Work {
    pub name: &'static str,
    pub file: &'static str,
    /// Whether readers must reject half of the text, without returning a part of it.
    pub is_whole: bool,
    pub readers: &'static [(&'static str, Reader)],
}

const fn work(
    name: &'static str,
    file: &'static str,
    readers: &'static [(&'static str, Reader)],
) -> Work {
    Work { name, file, is_whole: false, readers }
}

const fn whole(
    name: &'static str,
    file: &'static str,
    readers: &'static [(&'static str, Reader)],
) -> Work {
    Work { is_whole: true, ..work(name, file, readers) }
}

const CHECKS: &[(&str, Reader)] = &[
    ("this library", json::check),
    ("serde_json, `IgnoredAny`", json::check_by_serde),
    ("rapidjson, `Reader`", peers::check_by_rapidjson),
    ("simdjson, `dom`", peers::check_by_simdjson),
];
const VALUES: &[(&str, Reader)] = &[
    ("this library, by steps", json::values),
    ("this library, by nodes", json::values_by_nodes),
    ("this library, by calls in turn", json::values_by_calls),
    ("serde_json, `Value`", json::values_by_serde),
    ("rapidjson, `Document`", peers::values_by_rapidjson),
    ("cJSON", peers::values_by_cjson),
    ("simdjson, `dom`", peers::values_by_simdjson),
    ("simdjson, `ondemand`", peers::values_on_demand_by_simdjson),
];
const DECODED: &[(&str, Reader)] = &[
    ("this library, by steps", json::decoded),
    ("this library, by nodes", json::decoded_by_nodes),
    ("serde_json, `Value`", json::decoded_by_serde),
    ("rapidjson, `Document`", peers::decoded_by_rapidjson),
    ("simdjson, `dom`", peers::decoded_by_simdjson),
    ("simdjson, `ondemand`", peers::decoded_on_demand_by_simdjson),
];
const HEADS: &[(&str, Reader)] = &[
    ("this library", http::heads),
    ("httparse", http::heads_by_httparse),
    ("http_parser", peers::heads_by_http_parser),
];
const HEADS_IN_PIECES: &[(&str, Reader)] = &[
    ("this library", http::heads_in_pieces),
    ("httparse", http::heads_in_pieces_by_httparse),
    ("http_parser", peers::heads_in_pieces_by_http_parser),
];
const BODIES: &[(&str, Reader)] =
    &[("this library", http::body), ("http_parser", peers::body_by_http_parser)];
const RECORDS: &[(&str, Reader)] = &[
    ("this library", csv::records),
    ("csv, into one record", csv::records_by_csv),
    ("libcsv", peers::records_by_libcsv),
];
const RECORDS_WITH_SEMICOLONS: &[(&str, Reader)] = &[
    ("this library", csv::records_with_semicolons),
    ("csv, into one record", csv::records_with_semicolons_by_csv),
    ("libcsv", peers::records_with_semicolons_by_libcsv),
];
const REPLIES: &[(&str, Reader)] = &[
    ("this library", resp::replies),
    ("this library, by nodes", resp::replies_by_nodes),
    ("hiredis, which keeps them", peers::replies_by_hiredis),
    ("hiredis, which tells them", peers::replies_told_by_hiredis),
];
const REPLIES_IN_PIECES: &[(&str, Reader)] = &[
    ("this library, `Extent`", resp::replies_in_pieces),
    ("hiredis, which keeps them", peers::replies_in_pieces_by_hiredis),
    ("hiredis, which tells them", peers::replies_told_in_pieces_by_hiredis),
];
const DOCUMENTS: &[(&str, Reader)] = &[
    ("this library", toml::document),
    ("toml", toml::document_by_toml),
    ("toml++", peers::document_by_tomlplusplus),
];
const DECODED_DOCUMENTS: &[(&str, Reader)] = &[
    ("this library", toml::decoded),
    ("toml", toml::decoded_by_toml),
    ("toml++", peers::decoded_by_tomlplusplus),
];
const PAIRS: &[(&str, Reader)] = &[("this library", ini::pairs), ("inih", peers::pairs_by_inih)];

pub const WORKS: &[Work] = &[
    whole("check of a JSON text", "items.json", CHECKS),
    whole("check of one that is strings for the most part", "strings.json", CHECKS),
    whole("check of statuses", "statuses.json", CHECKS),
    whole("all values of a JSON text", "items.json", VALUES),
    whole("all values of statuses", "statuses.json", VALUES),
    whole("check of coordinates", "coordinates.json", CHECKS),
    whole("all values of coordinates", "coordinates.json", VALUES),
    whole("check of a catalog", "catalog.json", CHECKS),
    whole("all values of a catalog", "catalog.json", VALUES),
    whole("check of strings of 64 bytes", "lines.json", CHECKS),
    whole("decoded values of a JSON text", "items.json", DECODED),
    whole("decoded values of one that is strings for the most part", "strings.json", DECODED),
    whole("decoded values of statuses", "statuses.json", DECODED),
    whole("decoded values of coordinates", "coordinates.json", DECODED),
    work("one head of a request, 1000 times", "heads.http", HEADS),
    work("10,000 heads of a log", "log.http", HEADS),
    work("the same in pieces of 512 bytes", "log.http", HEADS_IN_PIECES),
    work("a body in chunks of 16 bytes", "small.chunked", BODIES),
    work("a body in chunks of 1,000 bytes", "large.chunked", BODIES),
    work("10,000 records", "records.csv", RECORDS),
    work("the same with semicolons and CRLF", "semicolons.csv", RECORDS_WITH_SEMICOLONS),
    work("a table of 1,000,000 records", "table.csv", RECORDS),
    work("40,000 small replies of Redis", "small.resp", REPLIES),
    work("16 large replies of Redis", "large.resp", REPLIES),
    work("an array of 100,000 strings", "array.resp", REPLIES),
    work("the same in pieces of 1,460 bytes", "array.resp", REPLIES_IN_PIECES),
    work("a document of INI", "settings.ini", PAIRS),
    work("a document of TOML", "settings.toml", DOCUMENTS),
    work("decoded values of a document of TOML", "settings.toml", DECODED_DOCUMENTS),
];
