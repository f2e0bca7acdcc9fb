//! The streams and errors with which rows run. Rows are in functions that are generic over the
//! stream and the error; each of these macros calls such functions with some of them.
pub use stream_errors::empty::EmptyError;
use streams::locating::LocatingSlice;
pub use streams::partial::Partial;

/// Text that knows its offset.
pub type LocatedText = LocatingSlice<&'static str>;

/// Bytes that know their place.
pub type LocatedBytes = LocatingSlice<&'static [u8]>;

/// At text, whole and cut.
#[macro_export]
macro_rules! at_text {
    ($rt:expr; $($rows:ident),+) => {{
        $(
            $rows::<&str, $crate::rows::Modal>(&$rt);
            $rows::<$crate::at::Partial<&str>, $crate::rows::Modal>(&$rt);
        )+
    }};
}

/// At text, whole and cut, and whole under plain errors.
#[macro_export]
macro_rules! at_text_also_plainly {
    ($rt:expr; $($rows:ident),+) => {{
        $(
            $crate::at_text!($rt; $rows);
            $rows::<&str, $crate::at::EmptyError>(&$rt);
        )+
    }};
}

/// At bytes, whole and cut, and whole under plain errors.
#[macro_export]
macro_rules! at_bytes {
    ($rt:expr; $($rows:ident),+) => {{
        $(
            $rows::<&[u8], $crate::rows::ModalAt<&'static [u8]>>(&$rt);
            $rows::<$crate::at::Partial<&[u8]>, $crate::rows::Modal>(&$rt);
            $rows::<&[u8], $crate::at::EmptyError>(&$rt);
        )+
    }};
}

/// At text and at bytes.
#[macro_export]
macro_rules! at_streams {
    ($rt:expr; $($rows:ident),+) => {{
        $(
            $crate::at_text!($rt; $rows);
            $crate::at_bytes!($rt; $rows);
        )+
    }};
}

/// At text and at bytes that know their place, whole and cut.
#[macro_export]
macro_rules! at_located {
    ($rt:expr; $($rows:ident),+) => {{
        $(
            $rows::<$crate::at::LocatedText, $crate::rows::Modal>(&$rt);
            $rows::<$crate::at::Partial<$crate::at::LocatedText>, $crate::rows::Modal>(&$rt);
            $rows::<$crate::at::LocatedBytes, $crate::rows::Modal>(&$rt);
            $rows::<$crate::at::Partial<$crate::at::LocatedBytes>, $crate::rows::Modal>(&$rt);
        )+
    }};
}
