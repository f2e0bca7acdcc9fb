//! The tests of the first proofs: a file of settings, a version and a color.
#![tactic(auto)]

#[cfg(test)]
mod color;
#[cfg(test)]
mod settings_file;
#[cfg(test)]
mod version;
