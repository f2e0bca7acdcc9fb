//! The tests of heads of requests and responses of HTTP/1.1 as places in their bytes
//! (`format_http_places`).
#![tactic(auto)]

#[cfg(test)]
mod extents;
#[cfg(test)]
mod heads;
#[cfg(test)]
mod responses;
#[cfg(test)]
mod slices;
#[cfg(test)]
mod trailers;
