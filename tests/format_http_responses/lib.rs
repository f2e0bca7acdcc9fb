//! The tests of heads of responses.
#![tactic(auto)]

#[cfg(test)]
mod heads;
#[cfg(test)]
mod status_lines;
