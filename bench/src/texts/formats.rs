//! JSON, CSV with quotes, Redis replies, and strings with escapes.
use super::{parts, Dice};

/// Some words.
fn words(dice: &mut Dice, out: &mut Vec<u8>, most: usize) {
    for k in 0..dice.below(most) + 1 {
        if k > 0 {
            out.push(b' ');
        }
        let word = dice.below(8) + 1;
        dice.letters(out, word);
    }
}

/// Appends a quoted string with about one escape in forty bytes.
fn quoted(dice: &mut Dice, out: &mut Vec<u8>, escapes: &[&str]) {
    out.push(b'"');
    words(dice, out, 6);
    for _ in 0..dice.below(3) {
        out.extend(escapes[dice.below(escapes.len())].bytes());
        words(dice, out, 6);
    }
    out.push(b'"');
}

/// Generates a JSON array of objects, similar to the response of a web API.
pub fn json(size: usize) -> Vec<u8> {
    let escapes = ["\\n", "\\\"", "\\u00e9", "\\/", "é"];
    let mut out = parts(size, |dice, out| {
        out.extend(if out.is_empty() { &b"[\n  "[..] } else { b",\n  " });
        out.extend(format!("{{\"id\": {}, \"title\": ", dice.below(1000000)).bytes());
        quoted(dice, out, &escapes);
        out.extend(b", \"tags\": [");
        for k in 0..dice.below(4) {
            out.extend(if k > 0 { &b", \""[..] } else { b"\"" });
            words(dice, out, 1);
            out.push(b'"');
        }
        out.extend(b"], \"place\": {\"street\": ");
        quoted(dice, out, &escapes);
        let (lat, long) = (dice.below(90), dice.below(100000));
        out.extend(format!(", \"at\": [{lat}.{long}, -{long}e-3]}}").bytes());
        let word = ["true", "false", "null"][dice.below(3)];
        out.extend(format!(", \"is_open\": {word}}}").bytes());
    });
    out.extend(b"\n]\n");
    out
}

/// Generates lines of fields separated by commas; a quarter of the fields are quoted.
pub fn csv(size: usize) -> Vec<u8> {
    parts(size, |dice, out| {
        for k in 0..dice.below(12) + 1 {
            if k > 0 {
                out.push(b',');
            }
            if dice.below(4) > 0 {
                let field = dice.below(17);
                dice.letters(out, field);
                continue;
            }
            out.push(b'"');
            words(dice, out, 4);
            if dice.below(3) == 0 {
                out.extend([&b"\"\""[..], b", ", b"\n"][dice.below(3)]);
                words(dice, out, 4);
            }
            out.push(b'"');
        }
        out.push(b'\n');
    })
}

/// Appends a bulk string, or the null bulk string.
fn bulk(dice: &mut Dice, out: &mut Vec<u8>) {
    if dice.below(10) == 0 {
        return out.extend(b"$-1\r\n");
    }
    let length = dice.below(64);
    out.extend(format!("${length}\r\n").bytes());
    dice.letters(out, length);
    out.extend(b"\r\n");
}

/// Generates Redis replies: simple strings, integers, bulk strings, and arrays of these.
pub fn replies(size: usize) -> Vec<u8> {
    parts(size, |dice, out| match dice.below(8) {
        0 => out.extend(b"+OK\r\n"),
        1 => out.extend(b"-ERR no such key\r\n"),
        2 => out.extend(format!(":{}\r\n", dice.below(100000)).bytes()),
        3 | 4 => bulk(dice, out),
        _ => {
            let length = dice.below(12);
            out.extend(format!("*{length}\r\n").bytes());
            for _ in 0..length {
                bulk(dice, out);
            }
        }
    })
}

/// Generates quoted strings with escapes, each followed by a comma.
pub fn escapes(size: usize) -> Vec<u8> {
    parts(size, |dice, out| {
        quoted(dice, out, &["\\n", "\\\"", "\\\\", "\\t"]);
        out.push(b',');
    })
}

/// Generates lists of numbers of one to nine digits. The numbers are separated by commas, and each
/// list is followed by a line feed.
pub fn number_lists(size: usize) -> Vec<u8> {
    parts(size, |dice, out| {
        for k in 0..dice.below(12) + 1 {
            let bound = 10usize.pow(dice.below(9) as u32 + 1);
            let number = dice.below(bound);
            out.extend(format!("{}{number}", if k > 0 { "," } else { "" }).bytes());
        }
        out.push(b'\n');
    })
}
