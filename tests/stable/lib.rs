//! Tests of stable parsers: the same result wherever the input is cut.
#![tactic(auto)]

#[cfg(test)]
mod bits;
#[cfg(test)]
mod cut;
#[cfg(test)]
mod cuts;
#[cfg(test)]
mod errors;
#[cfg(test)]
mod escapes;
#[cfg(test)]
mod integers;
#[cfg(test)]
mod lengths;
#[cfg(test)]
mod more_cuts;
#[cfg(test)]
mod operators;
#[cfg(test)]
mod pairs;
#[cfg(test)]
mod samples;
#[cfg(test)]
mod settling;
