//! Dates and times as numbers.
use super::{Date, Item, Time};
use crate::exports::{self, TomlDateTimeParts};
use crate::{Error, NOTHING};

/// A time of day, with the nanosecond of its second.
#[derive(Clone, Copy, Debug, PartialEq, Eq)]
pub struct Clock {
    /// The hour, from 0 to 23.
    pub hour: u8,
    /// The minute, from 0 to 59.
    pub minute: u8,
    /// The second, from 0 to 60, which is a leap second.
    pub second: u8,
    /// The nanosecond, from 0 to 999,999,999. Further digits of the fraction are cut off.
    pub nanosecond: u32,
}

/// A date, a time or both, with an offset or without.
#[derive(Clone, Copy, Debug, PartialEq, Eq)]
pub struct DateTime {
    /// The date.
    pub date: Option<Date>,
    /// The time.
    pub time: Option<Clock>,
    /// The offset from UTC in minutes; it is positive for times ahead of UTC.
    pub offset: Option<i16>,
}

impl DateTime {
    /// Converts the text of a date, a time or both, as TOML 1.0 writes it. This includes each
    /// timestamp of RFC 3339.
    ///
    /// # Errors
    ///
    /// - [`Error::Invalid`], without an offset, if `text` is none of these.
    /// - [`Error::NoMemory`].
    ///
    /// ```
    /// use pergidau::toml::DateTime;
    ///
    /// let it = DateTime::parse("1979-05-27T00:32:00.999999-07:00")?;
    /// assert_eq!(it.date.map(|date| date.day), Some(27));
    /// assert_eq!(it.time.map(|time| time.nanosecond), Some(999_999_000));
    /// assert_eq!(it.offset, Some(-420));
    /// assert!(DateTime::parse("1979-02-29").is_err());
    /// # Ok::<(), pergidau::Error>(())
    /// ```
    pub fn parse(text: impl AsRef<[u8]>) -> Result<DateTime, Error> {
        let (bytes, mut out) = (text.as_ref(), TomlDateTimeParts::default());
        // SAFETY: the pointers are those of live borrows, and the bytes are only read. The call takes up to
        // 1 KiB of stack (measured); where there is less, the thread's guard page ends the program.
        let code =
            unsafe { exports::exported_toml_date_time(bytes.as_ptr(), bytes.len(), &mut out) };
        match code {
            exports::DONE => Ok(DateTime::of(out)),
            code => Err(Error::of(code, None, NOTHING)),
        }
    }

    fn of(it: TomlDateTimeParts) -> DateTime {
        let TomlDateTimeParts { hour, minute, second, nanosecond, .. } = it;
        let date = Date { year: it.year, month: it.month, day: it.day };
        DateTime {
            date: (it.kind != exports::TOML_LOCAL_TIME).then_some(date),
            time: (it.kind != exports::TOML_LOCAL_DATE)
                .then_some(Clock { hour, minute, second, nanosecond }),
            offset: (it.kind == exports::TOML_OFFSET_DATE_TIME).then_some(it.offset),
        }
    }
}

impl Time<'_> {
    /// Returns the nanoseconds of the fraction. Digits after the ninth are cut off.
    ///
    /// ```
    /// let time = pergidau::toml::Time { hour: 0, minute: 0, second: 0, fraction: "05" };
    /// assert_eq!(time.nanosecond(), 50_000_000);
    /// ```
    pub fn nanosecond(&self) -> u32 {
        let mut out = 0;
        // SAFETY: the pointers are those of live borrows, and the bytes are only read. The call takes up to
        // 1 KiB of stack (measured); where there is less, the thread's guard page ends the program.
        unsafe {
            let (digits, length) = (self.fraction.as_ptr(), self.fraction.len());
            exports::exported_toml_nanosecond(digits, length, &mut out);
        }
        out
    }
}

impl Item<'_> {
    /// The numbers, where it is a date, a time or both.
    ///
    /// ```
    /// let document = pergidau::toml::OwnedDocument::parse("at = 07:32:00.5\n", 0)?;
    /// let at = document.root().get("at").and_then(|it| it.as_date_time()).unwrap();
    /// assert_eq!((at.date, at.time.map(|it| it.nanosecond)), (None, Some(500_000_000)));
    /// # Ok::<(), pergidau::toml::Error>(())
    /// ```
    pub fn as_date_time(&self) -> Option<DateTime> {
        let it = &self.node().value;
        if it.kind < exports::TOML_OFFSET_DATE_TIME {
            return None;
        }
        Some(DateTime::of(TomlDateTimeParts {
            kind: it.kind,
            nanosecond: self.time().nanosecond(),
            year: it.year,
            offset: it.offset,
            month: it.month,
            day: it.day,
            hour: it.hour,
            minute: it.minute,
            second: it.second,
        }))
    }
}
