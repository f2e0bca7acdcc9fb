//! The tests of JSON.
#![tactic(auto)]

#[cfg(test)]
mod integers;
#[cfg(test)]
mod members;
#[cfg(test)]
mod nodes;
#[cfg(test)]
mod steps;
#[cfg(test)]
mod tokens;
#[cfg(test)]
mod unescape;
#[cfg(test)]
mod values;
#[cfg(test)]
mod walks;
