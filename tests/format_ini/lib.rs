//! Tests of INI files in any dialect: their entries, and invalid lines.
#![tactic(auto)]

#[cfg(test)]
mod lookup;
#[cfg(test)]
mod places;
#[cfg(test)]
mod reads;
#[cfg(test)]
mod refused;
