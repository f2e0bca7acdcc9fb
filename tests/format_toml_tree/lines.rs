//! Lines of TOML with bare keys, integers, arrays and inline tables, only for the tests.
use std::alloc::{AllocError, AllocFailed, Global};
use format_toml_tree::value::{Item, Key, Value};

/// The rest of a line.
#[derive(Drop)]
pub struct Rest<'t> {
    bytes: &'t [u8],
}

/// The error of an invalid line.
#[derive(Debug, Drop)]
pub struct Wrong;

impl From<AllocError> for Wrong {
    fn from(_e: AllocError) -> Wrong {
        Wrong
    }
}

impl<T: Drop> From<AllocFailed<T>> for Wrong {
    fn from(_e: AllocFailed<T>) -> Wrong {
        Wrong
    }
}

impl<'t> Rest<'t> {
    pub fn new(text: &'t str) -> Rest<'t> {
        Rest { bytes: text.as_bytes() }
    }

    fn first(&self) -> u8 {
        match self.bytes.first() {
            Some(byte) => *byte,
            None => 0,
        }
    }

    fn takes(&mut self, byte: u8) -> bool {
        if self.first() == byte && !self.bytes.is_empty() {
            self.bytes = &self.bytes[1..];
            true
        } else {
            false
        }
    }

    fn spaces(&mut self) {
        while self.takes(b' ') {}
    }

    fn key(&mut self, alloc: Global) -> Result<Key<Global>, Wrong> {
        let mut names = Vec::new(alloc);
        loop {
            let mut name = String::new(alloc);
            while self.first().is_ascii_alphanumeric() {
                name.push(char::from(self.first()))?;
                self.bytes = &self.bytes[1..];
            }
            if name.is_empty() {
                return Err(Wrong);
            }
            names.push(name)?;
            if !self.takes(b'.') {
                return Ok(Key { names });
            }
        }
    }

    fn entry(&mut self, alloc: Global) -> Result<(Key<Global>, Value<Global>), Wrong> {
        let key = self.key(alloc)?;
        self.spaces();
        if !self.takes(b'=') {
            return Err(Wrong);
        }
        Ok((key, self.value(alloc)?))
    }

    fn value(&mut self, alloc: Global) -> Result<Value<Global>, Wrong> {
        self.spaces();
        if self.takes(b'[') {
            let mut values = Vec::new(alloc);
            self.spaces();
            while !self.takes(b']') {
                values.push(self.value(alloc)?)?;
                self.spaces();
                let _ = self.takes(b',');
                self.spaces();
            }
            return Ok(Value::Array(values));
        }
        if self.takes(b'{') {
            let mut entries = Vec::new(alloc);
            self.spaces();
            while !self.takes(b'}') {
                entries.push(self.entry(alloc)?)?;
                self.spaces();
                let _ = self.takes(b',');
                self.spaces();
            }
            return Ok(Value::Table(entries));
        }
        let mut number = 0i64;
        if !self.first().is_ascii_digit() {
            return Err(Wrong);
        }
        while self.first().is_ascii_digit() {
            number = number.wrapping_mul(10).wrapping_add(i64::from(self.first() - b'0'));
            self.bytes = &self.bytes[1..];
        }
        Ok(Value::Integer(number))
    }

    /// Parses the item of a line.
    pub fn line(&mut self, alloc: Global) -> Result<Option<Item<Global>>, Wrong> {
        self.spaces();
        if self.bytes.is_empty() || self.first() == b'#' {
            return Ok(None);
        }
        if self.takes(b'[') {
            let many = self.takes(b'[');
            let key = self.key(alloc)?;
            return Ok(Some(if many { Item::Tables(key) } else { Item::Table(key) }));
        }
        let (key, value) = self.entry(alloc)?;
        Ok(Some(Item::Entry(key, value)))
    }
}

/// Parses the lines of a text that are not blank.
pub fn lines_of(alloc: Global, text: &str) -> Result<Vec<Item<Global>>, Wrong> {
    let mut lines = Vec::new(alloc);
    for line in text.split('\n') {
        if let Some(item) = Rest::new(line).line(alloc)? {
            lines.push(item)?;
        }
    }
    Ok(lines)
}
