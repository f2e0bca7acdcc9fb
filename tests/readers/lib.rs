//! The tests of the readers and their program.
#![tactic(auto)]

#[cfg(test)]
mod arguments;
#[cfg(test)]
mod documents;
#[cfg(test)]
mod faults;
#[cfg(test)]
mod formulas;
#[cfg(test)]
mod runs;
