//! Small tasks, a function each, as `docs/RECIPES.md` has them, and the tests of each.
#![tactic(auto)]

#[cfg(test)]
mod floats;
#[cfg(test)]
mod lines;
#[cfg(test)]
mod numbers;
#[cfg(test)]
mod rows;
#[cfg(test)]
mod strings;
#[cfg(test)]
mod symbols;
#[cfg(test)]
mod tokens;
#[cfg(test)]
mod words;
