//! Small programs as a user writes them, a function for each rule, without contracts, and their
//! tests. They parse a web server's log, a configuration of nginx, PNG, DOT, URIs, dates, formulas,
//! filters, lists of hosts, `/etc/passwd`, and MQTT; arithmetic, JSON and heads of HTTP are ports of
//! the programs in `docs/ports`.
#![tactic(auto)]

#[cfg(test)]
mod arithmetic;
#[cfg(test)]
mod config;
#[cfg(test)]
mod date;
#[cfg(test)]
mod dot;
#[cfg(test)]
mod filters;
#[cfg(test)]
mod formula;
#[cfg(test)]
mod hosts;
#[cfg(test)]
mod http;
#[cfg(test)]
mod json;
#[cfg(test)]
mod log;
#[cfg(test)]
mod mqtt;
#[cfg(test)]
mod passwd;
#[cfg(test)]
mod png;
#[cfg(test)]
mod url;
