//! Tests of JSON by one function: values, errors of invalid texts, and written texts.
#![tactic(auto)]

#[cfg(test)]
mod faults;
#[cfg(test)]
mod rejected;
#[cfg(test)]
mod suite;
#[cfg(test)]
mod values;
#[cfg(test)]
mod written;
