//! The proved permission core as a library. A [`Sheet`] is a table of types, a [`Visit`] the state that requests are put to; both decide nothing themselves,
//! every answer is that of the proved code. docs/SPEC.md has the rules that comments name (as M3), docs/GUIDE.md how to write a sheet and what to do about a
//! refusal.
//!
//! ```
//! use pilgonca::{Method, Refusal, Subject, Type, Visit, EXAMPLE};
//! # fn main() -> Result<(), Box<dyn std::error::Error>> {
//! let (desk, tour, log) = (Subject(0), Subject(1), Type(1));
//! let mut visit = Visit::load(EXAMPLE)?;
//! let whole = visit.new_object(desk, log, Type(4))?;
//! let lent = visit.move_reference(desk, whole.cell, tour, Type(2))?;
//! visit.call(tour, lent.cell, Method(0), &[])?;
//! let refused = visit.call(tour, lent.cell, Method(1), &[5]);
//! assert_eq!(refused, Err(Refusal::NotCallable));
//! # Ok(())
//! # }
//! ```
//!
//! # The library first
//!
//! The package links static libraries that are made of the proved crates, for x86-64 Linux; cargo cannot make them. In a clone of the repository
//! `tools/libraries` proves and writes them, into target/staticlib, where the package finds them. Elsewhere, as for a dependency by git: `tools/install PREFIX`
//! in a clone, and `PILGONCA_LIB_DIR=PREFIX/lib` in the environment of cargo, an absolute path. Both need the toolchain `rt`, once.
//!
//! `Visit` and `script` are the feature `visits`, `tiny` and `tiny_sheets` the feature `tiny`, `doors` the feature `doors`. All are on unless they are turned
//! off: sheets alone need two static libraries of the seven.
//!
//! # Stack
//!
//! The deepest request takes 176 KB of stack (docs/MEASURED.md): the 2 MB that std gives a thread do.
#![deny(missing_docs)]
#![deny(unsafe_code)]

#[cfg(feature = "doors")]
mod doors;
mod numbers;
pub mod raw;
mod records;
mod refusal;
#[cfg(feature = "visits")]
pub mod saved;
mod sheet;
#[cfg(feature = "tiny")]
mod tiny;
#[cfg(feature = "visits")]
mod visit;

#[cfg(feature = "doors")]
pub use doors::{doors, Doors};
pub use numbers::{Call, Cell, Method, Place, Subject, Type};
pub use records::{Key, Kind, MethodInfo, Representation, Signature, TypeInfo};
pub use refusal::{Refusal, SheetRefused};
#[cfg(feature = "visits")]
pub use saved::SavedRefused;
pub use sheet::{Comparison, Pairs, Sheet};
#[cfg(feature = "tiny")]
pub use tiny::{tiny, tiny_sheets};
#[cfg(feature = "visits")]
pub use visit::{script, Answered, CallInfo, Called, CellInfo, Held, PlaceInfo, PlaceKind, Visit};

/// The version of the whole, as `PILGONCA_VERSION` of the C header.
pub const VERSION: &str = env!("CARGO_PKG_VERSION");

/// The first sheet of docs/GUIDE.md, for examples: two subjects, the methods read (0) and mark (1), and the class 1.
pub const EXAMPLE: &[u8] = include_bytes!("../../examples/guide.sheet");
