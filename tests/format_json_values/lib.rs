//! The tests of values of JSON, with arrays and objects, and of texts without these.
#![tactic(auto)]

#[cfg(test)]
mod integers;
#[cfg(test)]
mod level;
#[cfg(test)]
mod parts;
#[cfg(test)]
mod refused;
#[cfg(test)]
mod scalars;
#[cfg(test)]
mod values;
