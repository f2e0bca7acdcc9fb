//! Messages of the Domain Name System (RFC 1035): headers, questions, records and their data, and
//! names, decompressed. Nothing of this module allocates; the library does during a call.
//!
//! ```
//! use pergidau::dns::{Data, Message};
//!
//! let bytes = b"\x12\x34\x81\x80\0\x01\0\x01\0\0\0\0\x03www\x03com\0\0\x01\0\x01\
//!     \xc0\x0c\0\x01\0\x01\0\0\x0e\x10\0\x04\xc0\0\x02\x01";
//! let message = Message::new(bytes)?;
//! assert_eq!(message.header().answer_count, 1);
//! for record in message.records() {
//!     let (_section, record) = record?;
//!     assert_eq!(record.name()?.to_string(), "www.com.");
//!     assert_eq!(record.data()?, Data::A([192, 0, 2, 1]));
//! }
//! # Ok::<(), pergidau::Error>(())
//! ```
mod data;
mod error;
mod name;

pub use crate::dns::data::{Data, Strings};
pub use crate::dns::error::DnsError;
pub use crate::dns::name::{Labels, Name};
pub use crate::exports::{DnsHeader as Header, DNS_MAX_NAME, DNS_MAX_POINTERS};

use crate::{at, exports, Error, NOTHING};

/// A message, whose header is parsed. Its entries are parsed one by one.
#[derive(Clone, Copy, Debug, PartialEq, Eq)]
pub struct Message<'m> {
    bytes: &'m [u8],
    header: Header,
}

impl<'m> Message<'m> {
    /// Parses the header of a message: its first twelve bytes, whatever they are.
    ///
    /// # Errors
    ///
    /// The message has fewer than twelve bytes.
    pub fn new(bytes: &'m [u8]) -> Result<Message<'m>, Error> {
        let mut header = Header::default();
        // SAFETY: the pointers are those of live borrows, and the bytes are only read. The call uses up to
        // 4 KiB of stack (measured); with less, the thread's guard page stops the program.
        let code = unsafe {
            exports::exported_dns_message_header(bytes.as_ptr(), bytes.len(), &mut header)
        };
        match code {
            exports::DONE => Ok(Message { bytes, header }),
            code => Err(Error::of(code, None, NOTHING)),
        }
    }

    /// Returns the header.
    pub fn header(&self) -> &Header {
        &self.header
    }

    /// Returns the questions, as many as the header counts. An error is the last item.
    pub fn questions(&self) -> Questions<'m> {
        Questions(Entries { bytes: self.bytes, end: 12, left: [self.header.question_count, 0, 0] })
    }

    /// Returns the records of the three sections, as many as the header counts, each with its section.
    /// The questions before them are parsed first. An error is the last item.
    ///
    /// ```
    /// use pergidau::dns::Message;
    ///
    /// // (an answer, of which only the root is there)
    /// let message = Message::new(b"\0\0\x80\0\0\0\0\x01\0\0\0\0\0")?;
    /// let mut records = message.records();
    /// let error = records.next().unwrap().unwrap_err();
    /// assert_eq!(error.to_string(), "incomplete element at offset 13");
    /// assert!(records.next().is_none());
    /// # Ok::<(), pergidau::Error>(())
    /// ```
    pub fn records(&self) -> Records<'m> {
        let Header { answer_count, authority_count, additional_count, .. } = self.header;
        let left = [answer_count, authority_count, additional_count];
        Records { questions: self.questions(), records: Entries { left, ..self.questions().0 } }
    }
}

/// A question.
#[derive(Clone, Copy, Debug, PartialEq, Eq)]
pub struct Question<'m> {
    bytes: &'m [u8],
    offset: usize,
    places: exports::DnsQuestion,
}

impl<'m> Question<'m> {
    /// Parses the question at an offset of a message.
    ///
    /// # Errors
    ///
    /// [`InvalidDns`](Error::InvalidDns): there is none. Or memory allocation failed.
    ///
    /// ```
    /// use pergidau::dns::Question;
    ///
    /// let question = Question::at(b"\x03com\0\0\x0f\0\x01rest", 0)?;
    /// assert_eq!((question.record_type(), question.class(), question.end()), (15, 1, 9));
    /// # Ok::<(), pergidau::Error>(())
    /// ```
    pub fn at(bytes: &'m [u8], offset: usize) -> Result<Question<'m>, Error> {
        let mut places = exports::DnsQuestion::default();
        // SAFETY: the pointers are those of live borrows, and the bytes are only read. The call uses up to
        // 48 KiB of stack (measured); with less, the thread's guard page stops the program.
        let code = unsafe {
            exports::exported_dns_question_at(bytes.as_ptr(), bytes.len(), offset, &mut places)
        };
        match code {
            exports::DONE => Ok(Question { bytes, offset, places }),
            code => Err(error::error_of(code, places.fault)),
        }
    }

    /// Returns the name in question.
    ///
    /// # Errors
    ///
    /// Memory allocation failed.
    pub fn name(&self) -> Result<Name, Error> {
        Name::at(self.bytes, self.offset).map(|(name, _)| name)
    }

    /// Returns the number of the type of the requested records; 255 means all.
    pub fn record_type(&self) -> u16 {
        self.places.record_type
    }

    /// Returns the number of their class; 1 is the Internet, 255 any.
    pub fn class(&self) -> u16 {
        self.places.record_class
    }

    /// Returns the offset in the message after the question.
    pub fn end(&self) -> usize {
        self.places.end
    }
}

/// A resource record.
#[derive(Clone, Copy, Debug, PartialEq, Eq)]
pub struct Record<'m> {
    bytes: &'m [u8],
    offset: usize,
    places: exports::DnsRecord,
}

impl<'m> Record<'m> {
    /// Parses the record at an offset of a message. Its data are exactly the contents of its type.
    ///
    /// # Errors
    ///
    /// [`InvalidDns`](Error::InvalidDns): there is none. Or memory allocation failed.
    pub fn at(bytes: &'m [u8], offset: usize) -> Result<Record<'m>, Error> {
        let mut places = exports::DnsRecord::default();
        // SAFETY: the pointers are those of live borrows, and the bytes are only read. The call uses up to
        // 48 KiB of stack (measured); with less, the thread's guard page stops the program.
        let code = unsafe {
            exports::exported_dns_record_at(bytes.as_ptr(), bytes.len(), offset, &mut places)
        };
        match code {
            exports::DONE => Ok(Record { bytes, offset, places }),
            code => Err(error::error_of(code, places.fault)),
        }
    }

    /// Returns the name of the node to which the record pertains.
    ///
    /// # Errors
    ///
    /// Memory allocation failed.
    pub fn name(&self) -> Result<Name, Error> {
        Name::at(self.bytes, self.offset).map(|(name, _)| name)
    }

    /// Returns the number of its type.
    pub fn record_type(&self) -> u16 {
        self.places.record_type
    }

    /// Returns the number of its class; 1 is the Internet.
    pub fn class(&self) -> u16 {
        self.places.record_class
    }

    /// Returns for how many seconds it may be cached. A number above 2<sup>31</sup> - 1 is to be taken
    /// as 0.
    pub fn time_to_live(&self) -> u32 {
        self.places.time_to_live
    }

    /// Returns the bytes of its data. Names in them may be compressed.
    pub fn data_bytes(&self) -> &'m [u8] {
        at(self.bytes, self.places.span)
    }

    /// Returns its data.
    ///
    /// # Errors
    ///
    /// Memory allocation failed.
    pub fn data(&self) -> Result<Data<'m>, Error> {
        Data::of(self.bytes, &self.places)
    }

    /// Returns the offset in the message after the record.
    pub fn end(&self) -> usize {
        self.places.end
    }
}

/// A section of records.
#[derive(Clone, Copy, Debug, PartialEq, Eq)]
pub enum Section {
    /// The records of the answer section.
    Answer,
    /// The records that point to an authority.
    Authority,
    /// The records with additional information.
    Additional,
}

/// Entries of a message, in sequence.
#[derive(Clone, Debug)]
struct Entries<'m> {
    bytes: &'m [u8],
    end: usize,
    /// (of each section, how many are left)
    left: [u16; 3],
}

impl<'m> Entries<'m> {
    /// Parses the next entry with `at`, and returns it with its section. An error is the last item.
    fn next<E>(
        &mut self,
        at: impl FnOnce(&'m [u8], usize) -> Result<E, Error>,
        end: fn(&E) -> usize,
    ) -> Option<Result<(Section, E), Error>> {
        const SECTIONS: [Section; 3] = [Section::Answer, Section::Authority, Section::Additional];
        let (section, left) = SECTIONS.iter().zip(&mut self.left).find(|(_, left)| **left > 0)?;
        *left -= 1;
        let entry = at(self.bytes, self.end);
        match &entry {
            Ok(entry) => self.end = end(entry),
            Err(_) => self.left = [0; 3],
        }
        Some(entry.map(|entry| (*section, entry)))
    }
}

/// The questions of a message.
#[derive(Clone, Debug)]
pub struct Questions<'m>(Entries<'m>);

impl<'m> Iterator for Questions<'m> {
    type Item = Result<Question<'m>, Error>;

    fn next(&mut self) -> Option<Result<Question<'m>, Error>> {
        let question = self.0.next(Question::at, Question::end)?;
        Some(question.map(|(_, question)| question))
    }
}

/// The records of a message.
#[derive(Clone, Debug)]
pub struct Records<'m> {
    questions: Questions<'m>,
    records: Entries<'m>,
}

impl<'m> Iterator for Records<'m> {
    type Item = Result<(Section, Record<'m>), Error>;

    fn next(&mut self) -> Option<Result<(Section, Record<'m>), Error>> {
        let questions = &mut self.questions;
        let at = |bytes, end: usize| match questions.find_map(Result::err) {
            None => Record::at(bytes, end.max(questions.0.end)),
            Some(error) => Err(error),
        };
        self.records.next(at, Record::end)
    }
}
