//! The typed check of Keleusma modules: decides a listing before it runs.
//!
//! [`check`] accepts or refuses any bytes. What it answers is proved equal to a definition; this package calls the
//! static library and gives its numbers names.
//!
//! ```
//! let listing = b"(module 8 8 6 0 0 8 9
//! (sig (top) (top) (flat 0 16))
//! (chunk 1
//! (op GetLocal 0)
//! (op GetField Flat 8 3)
//! (op Return)
//! )
//! )
//! ";
//! let accepted = stagecheck::check(listing)?;
//! assert_eq!(accepted.instructions(), 3);
//! assert_eq!(accepted.heights(), [Some(0), Some(1), Some(1)]);
//! # Ok::<(), stagecheck::Refusal>(())
//! ```
//!
//! The same with a read that ends one byte past the composite:
//!
//! ```
//! use stagecheck::Refusal;
//!
//! let listing = b"(module 8 8 6 0 0 8 9
//! (sig (top) (top) (flat 0 16))
//! (chunk 1
//! (op GetLocal 0)
//! (op GetField Flat 9 3)
//! (op Return)
//! )
//! )
//! ";
//! let refusal = stagecheck::check(listing).unwrap_err();
//! assert_eq!(refusal, Refusal::OffsetOutOfBounds { chunk: 0, ip: 1, offset: 9, need: 17, size: 16 });
//! assert_eq!(
//!     refusal.to_string(),
//!     "chunk 0, instruction 1: the read at offset 9 ends at byte 17 of a composite of 16 bytes"
//! );
//! ```
//!
//! # Controllers without floats
//!
//! A listing whose first line says F 0 is one for a controller without floats. Kind 5, the float, is then a kind that
//! is not known: an op that names it and a shared entry of it are refused, and a shape or a constant of it is unknown,
//! so that reads of it are blind.
//!
//! ```
//! use stagecheck::Refusal;
//!
//! let listing = b"(module 8 0 6 0 0 8 9
//! (chunk 0
//! (op GetData 0)
//! (op GetField Flat 0 5)
//! (op Return)
//! )
//! )
//! ";
//! assert_eq!(stagecheck::check(listing), Err(Refusal::CannotFollow { lines: 3 }));
//! ```
//!
//! # Listings written back
//!
//! [`read`] reads a listing and checks nothing else; what it gives is kept in [`Tables`] and written back as the same
//! bytes, to hand it on. A listing that a check would refuse for another reason is read and written too.
//!
//! ```
//! let listing = b"(module 8 8 6 0 0 8 9\n(chunk 0\n(op Add)\n)\n)\n";
//! assert!(stagecheck::check(listing).is_err());
//! let mut out = [0; 100];
//! let length = stagecheck::read(listing)?.write(&mut out)?;
//! assert_eq!(&out[..length], listing);
//! # Ok::<(), stagecheck::Refusal>(())
//! ```
//!
//! # Where the library is found
//!
//! In the folder that the environment variable `STAGECHECK_LIB_DIR` names when this package is built, as `PREFIX/lib`
//! after `./install PREFIX`; without it in the repository's target/staticlib. No other package is needed.
//!
//! # Time and stack
//!
//! A call always ends, but there is no limit of time: loops in loops multiply the passes of the walk, and a listing
//! within all limits can keep a check busy practically for ever. Where listings come from strangers, call in a process
//! that can be ended. Reading and writing walk nothing. A check needs up to 200 KiB of stack, measured; threads of Rust have 2 MiB unless told
//! otherwise. The library is for x86-64 Linux.

// `forbid` at the root cannot be lifted for `sys`: so the root denies, and every other module forbids.
#![deny(unsafe_code)]
#![warn(missing_docs)]

mod accepted;
mod check;
mod refusal;
#[allow(unsafe_code)]
mod sys;
mod tables;

pub use accepted::Accepted;
pub use check::{Checker, check};
pub use refusal::{Limit, PrivateReason, Refusal, SharedReason};
pub use sys::TABLE_WORDS;
pub use tables::{Counts, Tables, read};
