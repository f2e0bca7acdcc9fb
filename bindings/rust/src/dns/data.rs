//! The data of records.
use crate::dns::Name;
use crate::{at, exports, Error};

/// The data of a record, by its type and class (RFC 1035, RFC 3596, RFC 2782). Addresses and services
/// are those of the class of the Internet.
// (a name holds its bytes, and nothing here allocates)
#[allow(clippy::large_enum_variant)]
#[derive(Clone, Copy, Debug, PartialEq, Eq)]
#[non_exhaustive]
pub enum Data<'m> {
    /// Of the type 1: the four bytes of an address.
    A([u8; 4]),
    /// Of the type 28: the sixteen bytes of an address.
    Aaaa([u8; 16]),
    /// Of the type 2: a name server.
    Ns(Name),
    /// Of the type 5: the canonical name.
    Cname(Name),
    /// Of the type 12: the name that is pointed to.
    Ptr(Name),
    /// Of the type 15: a mail exchange.
    Mx {
        /// The lower, the more it is preferred.
        preference: u16,
        /// The host.
        exchange: Name,
    },
    /// Of the type 16: one character string or more.
    Txt(Strings<'m>),
    /// Of the type 6: the start of a zone of authority. Times are in seconds.
    Soa {
        /// The server that is the original source of the zone's data.
        primary: Name,
        /// The mailbox of the person responsible for the zone.
        mailbox: Name,
        /// The version of the zone.
        serial: u32,
        /// When the zone is to be refreshed.
        refresh: u32,
        /// When a failed refresh is to be tried again.
        retry: u32,
        /// When the zone is no longer authoritative.
        expire: u32,
        /// The least time to live of the zone's records.
        minimum: u32,
    },
    /// Of the type 33: the place of a service.
    Srv {
        /// The lower, the sooner it is tried.
        priority: u16,
        /// The larger, the more likely it is chosen among those of the same priority.
        weight: u16,
        /// The port of the host.
        port: u16,
        /// The host; the root if the service is not available.
        target: Name,
    },
    /// Of any other type or class. Or no data of any type, in the classes 254 and 255.
    Other(&'m [u8]),
}

/// The number of two bytes at an offset of data.
fn short(data: &[u8], offset: usize) -> u16 {
    data[offset..][..2].iter().fold(0, |number, byte| number << 8 | u16::from(*byte))
}

/// The number of four bytes at an offset of data.
fn long(data: &[u8], offset: usize) -> u32 {
    u32::from(short(data, offset)) << 16 | u32::from(short(data, offset + 2))
}

impl<'m> Data<'m> {
    /// Returns the data of a record, which are exactly the contents of its type.
    pub(super) fn of(message: &'m [u8], record: &exports::DnsRecord) -> Result<Data<'m>, Error> {
        let data = at(message, record.span);
        let name_at = |offset| Name::at(message, record.span.offset + offset);
        if data.is_empty() && matches!(record.record_class, 254 | 255) {
            return Ok(Data::Other(data));
        }
        Ok(match (record.record_type, record.record_class) {
            (1, 1) => data.try_into().map_or(Data::Other(data), Data::A),
            (28, 1) => data.try_into().map_or(Data::Other(data), Data::Aaaa),
            (2, _) => Data::Ns(name_at(0)?.0),
            (5, _) => Data::Cname(name_at(0)?.0),
            (12, _) => Data::Ptr(name_at(0)?.0),
            (15, _) => Data::Mx { preference: short(data, 0), exchange: name_at(2)?.0 },
            (16, _) => Data::Txt(Strings { left: data }),
            (6, _) => {
                let (primary, end) = name_at(0)?;
                let (mailbox, end) = Name::at(message, end)?;
                let number = |index: usize| long(message, end + 4 * index);
                Data::Soa {
                    primary,
                    mailbox,
                    serial: number(0),
                    refresh: number(1),
                    retry: number(2),
                    expire: number(3),
                    minimum: number(4),
                }
            }
            (33, 1) => Data::Srv {
                priority: short(data, 0),
                weight: short(data, 2),
                port: short(data, 4),
                target: name_at(6)?.0,
            },
            _ => Data::Other(data),
        })
    }
}

/// Character strings.
///
/// ```
/// use pergidau::dns::{Data, Record};
///
/// let record = Record::at(b"\0\0\x10\0\x01\0\0\0\0\0\x06\x02ab\0\x01c", 0)?;
/// let Data::Txt(strings) = record.data()? else { panic!() };
/// assert_eq!(strings.collect::<Vec<_>>(), [&b"ab"[..], b"", b"c"]);
/// # Ok::<(), pergidau::Error>(())
/// ```
#[derive(Clone, Copy, Debug, PartialEq, Eq)]
pub struct Strings<'m> {
    left: &'m [u8],
}

impl<'m> Iterator for Strings<'m> {
    type Item = &'m [u8];

    fn next(&mut self) -> Option<&'m [u8]> {
        let (length, behind) = self.left.split_first()?;
        let (string, left) = behind.split_at(usize::from(*length));
        self.left = left;
        Some(string)
    }
}
