//! Rows of texts and values.
// (each file of tests uses some of these)
#![allow(dead_code)]

use serde::de::DeserializeOwned;
use std::fmt::Debug;

/// Returns the value as `Debug` shows it, which is also different for 0.0 and -0.0.
pub fn shown<T: Debug, E>(found: Result<T, E>) -> Option<String> {
    found.ok().map(|it| format!("{it:?}"))
}

/// Checks that texts have these values, here and by `serde_json`.
pub fn accepts<T: DeserializeOwned + Debug>(rows: &[(&str, T)]) {
    for (text, value) in rows {
        let found = pergidau_serde::from_str::<T>(text);
        assert!(found.is_ok(), "{text}: {found:?}");
        assert_eq!(shown(found), Some(format!("{value:?}")), "{text}");
        assert_eq!(
            shown(pergidau_serde::from_slice::<T>(text.as_bytes())),
            Some(format!("{value:?}"))
        );
        assert_eq!(shown(serde_json::from_str::<T>(text)), Some(format!("{value:?}")), "{text}");
    }
}

/// Checks that texts are errors for a type, here and by `serde_json`.
pub fn rejects<T: DeserializeOwned + Debug>(rows: &[&str]) {
    for text in rows {
        let found = pergidau_serde::from_str::<T>(text);
        assert!(found.is_err(), "{text}: {found:?}");
        assert!(pergidau_serde::from_slice::<T>(text.as_bytes()).is_err());
        assert!(serde_json::from_str::<T>(text).is_err(), "{text}");
    }
}
