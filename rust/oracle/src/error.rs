//! Stands in for the original `src/error.rs`, which derives its texts by a registry crate and carries the SQL parser's errors. The variants that
//! need neither are the same; the pager modules make `Internal` alone.

pub type Result<T> = std::result::Result<T, SQLRiteError>;

#[derive(Debug)]
pub enum SQLRiteError {
    NotImplemented(String),
    General(String),
    Internal(String),
    UnknownCommand(String),
    Io(std::io::Error),
    Busy(String),
    BusySnapshot(String),
}
