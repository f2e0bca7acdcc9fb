//! Tests of errors as people read them.
#![tactic(auto)]

#[cfg(test)]
mod growth;
#[cfg(test)]
mod rendered;
#[cfg(test)]
mod texts;
