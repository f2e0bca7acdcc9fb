//! Parsers of ASCII's classes of characters, of line endings and of numbers as text.
mod classes;
mod line_ends;
mod number_types;
mod numbers;
