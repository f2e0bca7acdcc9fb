//! The tests of callers that meet the premises of their parsers.
#![tactic(auto)]

#[cfg(test)]
mod byte_orders;

#[cfg(test)]
mod callers;

#[cfg(test)]
mod escapes;

#[cfg(test)]
mod fields;

#[cfg(test)]
mod functions;

#[cfg(test)]
mod lexed;

#[cfg(test)]
mod rule_pieces;

#[cfg(test)]
mod slices;
