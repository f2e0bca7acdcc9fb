//! Tests of machines: all short inputs in every two pieces and in single bytes, compared with a
//! definition of their words.
#![tactic(auto)]

#[cfg(test)]
mod compared;
#[cfg(test)]
mod leaves;
#[cfg(test)]
mod nested;
#[cfg(test)]
mod numbers;
#[cfg(test)]
mod repeated;
#[cfg(test)]
mod rows;
#[cfg(test)]
mod words;
