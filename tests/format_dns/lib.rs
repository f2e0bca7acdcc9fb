//! The tests of headers of messages of the Domain Name System.
#![tactic(auto)]

#[cfg(test)]
mod headers;
