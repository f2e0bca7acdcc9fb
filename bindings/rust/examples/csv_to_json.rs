//! Writes the comma-separated values on standard input as JSON: an array with an object for each
//! record after the first, which has the names.
use pergidau::csv::{self, LineEnd};
use std::fmt::Write;
use std::io::{self, Read};
use std::process::ExitCode;

fn append_string(text: &str, out: &mut String) {
    out.push('"');
    for letter in text.chars() {
        match letter {
            '"' | '\\' => out.extend(['\\', letter]),
            '\0'..='\x1f' => write!(out, "\\u{:04x}", u32::from(letter)).expect("a String grows"),
            _ => out.push(letter),
        }
    }
    out.push('"');
}

/// Returns the JSON of a document, or the offset of an error and its description.
fn converted(document: &str) -> Result<String, String> {
    let mut records = csv::records(document.as_bytes(), LineEnd::Either);
    let field = |bytes: &[u8]| String::from_utf8_lossy(bytes).into_owned();
    let mut names: Vec<String> = Vec::new();
    if let Some(header) = records.next_record() {
        names.extend(header.map_err(|error| error.to_string())?.fields().map(field));
    }
    let mut out = String::from("[");
    let mut number = 1;
    while let Some(record) = records.next_record() {
        let record = record.map_err(|error| error.to_string())?;
        if record.fields().len() != names.len() {
            return Err(format!("record {number} has {} fields", record.fields().len()));
        }
        out.push_str(if number > 1 { ",\n" } else { "\n" });
        for (place, (name, bytes)) in names.iter().zip(record.fields()).enumerate() {
            out.push_str(if place > 0 { ", " } else { "  {" });
            append_string(name, &mut out);
            out.push_str(": ");
            append_string(&field(bytes), &mut out);
        }
        out.push('}');
        number += 1;
    }
    out.push_str("\n]");
    Ok(out)
}

fn main() -> io::Result<ExitCode> {
    let mut document = String::new();
    io::stdin().read_to_string(&mut document)?;
    match converted(&document) {
        Ok(text) => println!("{text}"),
        Err(error) => {
            eprintln!("{error}");
            return Ok(ExitCode::FAILURE);
        }
    }
    Ok(ExitCode::SUCCESS)
}
