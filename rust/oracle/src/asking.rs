//! One question to the originals, and the three ways it can end.

use crate::error::{Result, SQLRiteError};
use crate::texts;
use std::cell::Cell;
use std::panic::{self, AssertUnwindSafe};
use std::sync::Once;

/// How a call of an original function ended.
#[derive(Clone, Debug, PartialEq)]
pub enum Reply<T> {
    Accepted(T),
    /// An error whose text stands for this number of document 01.
    Refused(u32),
    /// It panicked: outside the domain. Document 01's numbers decide there, not the original.
    Outside,
}

impl<T> Reply<T> {
    pub fn map<U>(self, f: impl FnOnce(T) -> U) -> Reply<U> {
        match self {
            Reply::Accepted(value) => Reply::Accepted(f(value)),
            Reply::Refused(number) => Reply::Refused(number),
            Reply::Outside => Reply::Outside,
        }
    }
}

thread_local! {
    static ASKING: Cell<bool> = const { Cell::new(false) };
}

/// Panics of the originals are answers here, so they print nothing. All others print as ever.
fn quiet_panics() {
    static ONCE: Once = Once::new();
    ONCE.call_once(|| {
        let usual = panic::take_hook();
        panic::set_hook(Box::new(move |info| {
            if !ASKING.get() {
                usual(info);
            }
        }));
    });
}

/// Runs `question`, a call of an original function.
///
/// An error whose text is in no row of the table panics here: the table is to be complete, and a test holds it to the sources.
pub fn ask<T>(question: impl FnOnce() -> Result<T>) -> Reply<T> {
    quiet_panics();
    ASKING.set(true);
    let ended = panic::catch_unwind(AssertUnwindSafe(question));
    ASKING.set(false);
    match ended {
        Ok(Ok(value)) => Reply::Accepted(value),
        Ok(Err(SQLRiteError::Internal(text))) => match texts::number(&text) {
            Some(number) => Reply::Refused(number),
            None => panic!("an error of the originals that the table of texts does not number: {text}"),
        },
        Ok(Err(other)) => panic!("an error of the originals that is not Internal: {other:?}"),
        Err(_) => Reply::Outside,
    }
}
