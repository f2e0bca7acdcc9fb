//! JSON values, CSV with quotes, Redis replies, and strings with escapes.
use crate::outcome::Outcome;
use memchr::{memchr, memchr2};
use std::str::from_utf8;

enum Value {
    Null,
    Boolean(#[allow(dead_code)] bool),
    Number(String),
    Text(String),
    Array(Vec<Value>),
    Object(Vec<(String, Value)>),
}

/// An offset in a JSON text.
struct Json<'i> {
    text: &'i str,
    at: usize,
}

impl Json<'_> {
    fn first(&self) -> Option<u8> {
        self.text.as_bytes().get(self.at).copied()
    }

    fn eat(&mut self, byte: u8) -> Option<()> {
        (self.first()? == byte).then(|| self.at += 1)
    }

    fn skip(&mut self) {
        while matches!(self.first(), Some(b' ' | b'\t' | b'\r' | b'\n')) {
            self.at += 1;
        }
    }

    fn word(&mut self, word: &str, value: Value) -> Option<Value> {
        self.text[self.at..].starts_with(word).then(|| {
            self.at += word.len();
            value
        })
    }

    fn digits(&mut self) -> Option<()> {
        let start = self.at;
        while matches!(self.first(), Some(b'0'..=b'9')) {
            self.at += 1;
        }
        (self.at > start).then_some(())
    }

    fn number(&mut self) -> Option<String> {
        let start = self.at;
        let _ = self.eat(b'-');
        if self.eat(b'0').is_none() {
            self.digits()?;
        }
        if self.eat(b'.').is_some() {
            self.digits()?;
        }
        if matches!(self.first(), Some(b'e' | b'E')) {
            self.at += 1;
            if matches!(self.first(), Some(b'+' | b'-')) {
                self.at += 1;
            }
            self.digits()?;
        }
        Some(self.text[start..self.at].to_string())
    }

    fn unit(&mut self) -> Option<u32> {
        let digits = self.text.get(self.at..self.at + 4)?;
        self.at += 4;
        u32::from_str_radix(digits, 16).ok()
    }

    fn escape(&mut self) -> Option<char> {
        let named = self.first()?;
        self.at += 1;
        Some(match named {
            b'"' | b'\\' | b'/' => char::from(named),
            b'b' => '\x08',
            b'f' => '\x0C',
            b'n' => '\n',
            b'r' => '\r',
            b't' => '\t',
            b'u' => {
                let high = self.unit()?;
                if !(0xD800..0xDC00).contains(&high) {
                    return char::from_u32(high);
                }
                self.eat(b'\\')?;
                self.eat(b'u')?;
                let low = self.unit()?.checked_sub(0xDC00).filter(|&low| low < 0x400)?;
                return char::from_u32(((high - 0xD800) << 10) + low + 0x10000);
            }
            _ => return None,
        })
    }

    fn string(&mut self) -> Option<String> {
        self.eat(b'"')?;
        let mut all = String::new();
        loop {
            let start = self.at;
            while self.first()? >= b' ' && !matches!(self.first()?, b'"' | b'\\') {
                self.at += 1;
            }
            all.push_str(&self.text[start..self.at]);
            let end = self.first()?;
            self.at += 1;
            match end {
                b'"' => return Some(all),
                b'\\' => all.push(self.escape()?),
                _ => return None,
            }
        }
    }

    /// Parses items separated by commas, with the byte before them and the byte `end` after them.
    fn items<T>(&mut self, end: u8, item: impl Fn(&mut Self) -> Option<T>) -> Option<Vec<T>> {
        let mut all = Vec::new();
        self.at += 1;
        self.skip();
        if self.eat(end).is_some() {
            return Some(all);
        }
        loop {
            all.push(item(self)?);
            self.skip();
            if self.eat(end).is_some() {
                return Some(all);
            }
            self.eat(b',')?;
            self.skip();
        }
    }

    fn member(&mut self) -> Option<(String, Value)> {
        let name = self.string()?;
        self.skip();
        self.eat(b':')?;
        self.skip();
        Some((name, self.value()?))
    }

    fn value(&mut self) -> Option<Value> {
        match self.first()? {
            b'n' => self.word("null", Value::Null),
            b't' => self.word("true", Value::Boolean(true)),
            b'f' => self.word("false", Value::Boolean(false)),
            b'"' => self.string().map(Value::Text),
            b'[' => self.items(b']', Self::value).map(Value::Array),
            b'{' => self.items(b'}', Self::member).map(Value::Object),
            _ => self.number().map(Value::Number),
        }
    }
}

fn member_bytes((name, value): &(String, Value)) -> u64 {
    let own = match value {
        Value::Text(text) | Value::Number(text) => text.len(),
        _ => 0,
    };
    (name.len() + own) as u64
}

pub fn json(s: &[u8]) -> Outcome {
    let Ok(text) = from_utf8(s) else { return Outcome::default() };
    let mut json = Json { text, at: 0 };
    json.skip();
    let Some(Value::Array(values)) = json.value() else { return Outcome::default() };
    json.skip();
    if json.at < text.len() {
        return Outcome::default();
    }
    let sum = values.iter().map(|value| match value {
        Value::Object(members) => members.iter().map(member_bytes).sum(),
        _ => 0,
    });
    Outcome { count: values.len() as u64, sum: sum.sum(), left: 0 }
}

/// Parses the field at `at`, and returns it with the offset after it.
fn field(s: &[u8], mut at: usize) -> Option<(Vec<u8>, usize)> {
    if s.get(at) != Some(&b'"') {
        let start = at;
        while matches!(s.get(at), Some(b) if !matches!(b, b'"' | b',' | b'\r' | b'\n')) {
            at += 1;
        }
        return Some((s[start..at].to_vec(), at));
    }
    let mut all = Vec::new();
    loop {
        let start = at + 1;
        at = start + memchr(b'"', &s[start..])?;
        all.extend_from_slice(&s[start..at]);
        if s.get(at + 1) != Some(&b'"') {
            return Some((all, at + 1));
        }
        all.push(b'"');
        at += 1;
    }
}

fn records(s: &[u8]) -> Option<Vec<Vec<Vec<u8>>>> {
    let (mut all, mut at) = (Vec::new(), 0);
    while at < s.len() {
        let mut record = Vec::new();
        loop {
            let (field, end) = field(s, at)?;
            record.push(field);
            at = end + 1;
            match s.get(end) {
                Some(b',') => {}
                Some(b'\n') | None => break,
                Some(_) => return None,
            }
        }
        all.push(record);
    }
    Some(all)
}

pub fn csv(s: &[u8]) -> Outcome {
    records(s).map_or(Outcome::default(), |records| {
        let sum = records.iter().flatten().map(|field| field.len() as u64).sum();
        Outcome { count: records.len() as u64, sum, left: 0 }
    })
}

enum Reply<'i> {
    Bytes(&'i [u8]),
    Integer(#[allow(dead_code)] i64),
    Null,
    Array(Vec<Reply<'i>>),
}

/// Returns the line at `at`, and the offset of the next line.
fn line(s: &[u8], at: usize) -> Option<(&[u8], usize)> {
    let end = at + memchr2(b'\r', b'\n', s.get(at..)?)?;
    (s.get(end..end + 2)? == b"\r\n").then(|| (&s[at..end], end + 2))
}

fn integer(s: &[u8], at: usize) -> Option<(i64, usize)> {
    let (line, next) = line(s, at)?;
    let (is_negative, digits) = match line.split_first()? {
        (b'-', digits) => (true, digits),
        (b'+', digits) => (false, digits),
        _ => (false, line),
    };
    let mut value = 0i64;
    for byte in digits {
        let digit = i64::from(byte.wrapping_sub(b'0'));
        if digit > 9 {
            return None;
        }
        let signed = if is_negative { -digit } else { digit };
        value = value.checked_mul(10)?.checked_add(signed)?;
    }
    (!digits.is_empty()).then_some((value, next))
}

fn reply(s: &[u8], at: usize) -> Option<(Reply<'_>, usize)> {
    match s.get(at)? {
        b'+' | b'-' => line(s, at + 1).map(|(line, next)| (Reply::Bytes(line), next)),
        b':' => integer(s, at + 1).map(|(number, next)| (Reply::Integer(number), next)),
        b'$' => match integer(s, at + 1)? {
            (-1, next) => Some((Reply::Null, next)),
            (size, next) => {
                let end = next.checked_add(usize::try_from(size).ok()?)?;
                let bytes = s.get(next..end)?;
                (s.get(end..end + 2)? == b"\r\n").then_some((Reply::Bytes(bytes), end + 2))
            }
        },
        b'*' => match integer(s, at + 1)? {
            (-1, next) => Some((Reply::Null, next)),
            (size, mut next) => {
                let mut all = Vec::new();
                for _ in 0..size {
                    let (element, behind) = reply(s, next)?;
                    all.push(element);
                    next = behind;
                }
                (size >= 0).then_some((Reply::Array(all), next))
            }
        },
        _ => None,
    }
}

fn reply_bytes(reply: &Reply<'_>) -> u64 {
    match reply {
        Reply::Bytes(bytes) => bytes.len() as u64,
        _ => 0,
    }
}

pub fn replies(s: &[u8]) -> Outcome {
    let (mut told, mut at) = (Outcome::default(), 0);
    while let Some((reply, next)) = reply(s, at) {
        told.count += 1;
        told.sum += match &reply {
            Reply::Array(elements) => elements.iter().map(reply_bytes).sum(),
            _ => reply_bytes(&reply),
        };
        at = next;
    }
    told.left = (s.len() - at) as u64;
    told
}

/// Parses the quoted string at `at` and the comma after it, and returns the string with the offset
/// after the comma.
fn escaped(text: &str, at: usize) -> Option<(String, usize)> {
    let s = text.as_bytes();
    if s.get(at) != Some(&b'"') {
        return None;
    }
    let (mut all, mut at) = (String::new(), at + 1);
    loop {
        let end = at + memchr2(b'"', b'\\', &s[at..])?;
        all.push_str(&text[at..end]);
        if s[end] == b'"' {
            return (s.get(end + 1) == Some(&b',')).then_some((all, end + 2));
        }
        all.push(match s.get(end + 1)? {
            b'"' => '"',
            b'\\' => '\\',
            b'n' => '\n',
            b't' => '\t',
            _ => return None,
        });
        at = end + 2;
    }
}

pub fn escapes(s: &[u8]) -> Outcome {
    let Ok(text) = from_utf8(s) else { return Outcome::default() };
    let (mut told, mut at) = (Outcome::default(), 0);
    while let Some((read, next)) = escaped(text, at) {
        told.count += 1;
        told.sum += read.len() as u64;
        at = next;
    }
    told.left = (s.len() - at) as u64;
    told
}
