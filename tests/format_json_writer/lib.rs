//! The tests of values of JSON that are written as text.
#![tactic(auto)]

#[cfg(test)]
mod layouts;
#[cfg(test)]
mod numbers;
#[cfg(test)]
mod refused;
#[cfg(test)]
mod strings;
#[cfg(test)]
mod values;
