//! The original modules of the pager, byte for byte, as the answer to compare with.
//!
//! The files are included by path from the folder that ORACLE_SRC names (see build.rs). They lean on three things of the original repository
//! that need more than std, so shims stand in: `crate::error` (without the SQL parser's errors), `crate::sql::db::table::Value` (the enum alone)
//! and `Pager` (a map of pages with `read_page` and `stage_page`). All else is theirs.
//!
//! [`ask`] runs one of their functions and says how it ended: a value, a refusal by document 01's number, or a panic, which is outside the domain.

#[cfg(not(oracle_missing))]
mod asking;
#[cfg(not(oracle_missing))]
pub mod cell;
#[cfg(not(oracle_missing))]
pub mod error;
#[cfg(not(oracle_missing))]
pub mod interior_page;
#[cfg(not(oracle_missing))]
pub mod overflow;
#[cfg(not(oracle_missing))]
pub mod texts;
#[cfg(not(oracle_missing))]
pub mod utf8;
#[cfg(not(oracle_missing))]
pub mod varint;

#[cfg(not(oracle_missing))]
pub mod sql {
    pub mod db {
        pub mod table;
    }
    pub mod pager {
        include!(concat!(env!("OUT_DIR"), "/pager.rs"));
        #[allow(clippy::module_inception)]
        pub mod pager;

        /// The originals' own reading of one value block, which they keep to this module.
        pub fn decode_value(buf: &[u8], pos: usize) -> crate::error::Result<(crate::sql::db::table::Value, usize)> {
            cell::decode_value(buf, pos)
        }
    }
}

#[cfg(not(oracle_missing))]
pub use asking::{Reply, ask};

/// The folder of the originals.
#[cfg(not(oracle_missing))]
pub const FOLDER: &str = env!("ORACLE_FOLDER");

/// Why the originals are not here.
#[cfg(oracle_missing)]
pub const ABSENT: &str = env!("ORACLE_ABSENT");
