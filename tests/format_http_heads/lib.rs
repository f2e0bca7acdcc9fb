//! The tests of heads of requests of HTTP/1.1 and their lines (`format_http::heads`).
#![tactic(auto)]

#[cfg(test)]
mod field_lines;
#[cfg(test)]
mod heads;
#[cfg(test)]
mod named;
#[cfg(test)]
mod request_lines;
