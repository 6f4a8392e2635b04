//! Mooringeye, a proved EnOcean collector, as Rust types.
//!
//! The work is done by `libmooringeye.a`, whose functions are proved to do what `docs/API.md` says of them, for every input. This crate makes types
//! of their numbers: the [`Collector`], [`Telegram`] and [`Fields`] of ERP1, [`Erp2`], [`SlotPlan`] and [`Site`], [`Archive`] with its [`Rows`], and
//! [`Report`]. A [`Session`] is fed the bytes of a log and yields rows, as text, CSV or JSON.
//! What is refused comes back as a [`Refusal`], which shows the papers' number.
//!
//! The library is found by `MOORINGEYE_LIB_DIR`, by pkg-config, or in the repository; README.md of the crate says how.
//!
//! Only one module has `unsafe`, [`raw`], which has every call of the library on plain slices.
#![deny(missing_docs, unsafe_code)]

mod archive;
mod collector;
mod erp2;
mod lines;
mod pieces;
mod plans;
pub mod raw;
mod refusal;
mod report;
mod telegram;

pub use archive::{Archive, Row, Rows, Salvaged};
pub use collector::{Answer, Collector, Reception, Reply, Totals};
pub use erp2::{Erp2, Extension};
pub use lines::{bytes_of_hex, read_line, skip_lines, Closing, FirstLine, Format, Lines, Session, Taken};
pub use pieces::{Adding, Block, Packed, Packer, PieceRows, Scan};
pub use plans::{Assignment, Rule, Site, SlotPlan};
pub use refusal::{Refusal, Refused};
pub use report::{Line, Report};
pub use telegram::{check, crc8, Fields, Telegram};

/// The version of the library.
///
/// ```
/// let version = mooringeye::version();
/// assert_eq!(version.to_string(), env!("CARGO_PKG_VERSION"));
/// ```
#[derive(Clone, Copy, Debug, PartialEq, Eq, PartialOrd, Ord, Hash)]
pub struct Version {
    /// Rises when something that was there changes or goes.
    pub major: u32,
    /// Rises when something is added.
    pub minor: u32,
    /// Rises with everything else.
    pub patch: u32,
}

impl std::fmt::Display for Version {
    fn fmt(&self, f: &mut std::fmt::Formatter<'_>) -> std::fmt::Result {
        write!(f, "{}.{}.{}", self.major, self.minor, self.patch)
    }
}

/// The version of the library that is linked.
pub fn version() -> Version {
    let packed = raw::version();
    Version { major: packed / 65_536, minor: packed / 256 % 256, patch: packed % 256 }
}
