//! Replies of Redis, in RESP2 and RESP3, on every prefix, how many bytes are needed, and the texts
//! of their numbers.
#![tactic(auto)]

#[cfg(test)]
mod extents;
#[cfg(test)]
mod leaves;
#[cfg(test)]
mod level;
#[cfg(test)]
mod nodes;
#[cfg(test)]
mod numbers;
#[cfg(test)]
mod pieces;
#[cfg(test)]
mod replies;
#[cfg(test)]
mod shown;
#[cfg(test)]
mod written;
