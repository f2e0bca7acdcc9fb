//! The tests of lines and columns, and of the excerpts that messages show.
#![tactic(auto)]

#[cfg(test)]
mod excerpts;
#[cfg(test)]
mod places;
