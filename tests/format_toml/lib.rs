//! The tests of documents of TOML.
#![tactic(auto)]

#[cfg(test)]
mod dates;
#[cfg(test)]
mod documents;
#[cfg(test)]
mod floats;
#[cfg(test)]
mod integers;
#[cfg(test)]
mod level;
#[cfg(test)]
mod refused;
#[cfg(test)]
mod shown;
#[cfg(test)]
mod starts;
#[cfg(test)]
mod strings;
