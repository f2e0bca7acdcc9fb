//! The tests of nodes of documents of TOML (`format_toml_nodes`).
#![tactic(auto)]

#[cfg(test)]
mod date_times;
#[cfg(test)]
mod nodes;
