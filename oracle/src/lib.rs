//! The answers of the original check to listings; a second walk that knows the limits and fills the sheets; and a generator
//! of listings.

// The original with floats, and what is declared and read for it.
pub use original::{bytecode, form, listing, refusal, value_layout, verify, verify_typed};

// The answers.
pub mod answer;
pub mod compare;
pub mod conformance;
pub mod frame;
pub mod layout;
pub mod limits;
pub mod nesting;
pub mod replay;
pub mod rewrite;
pub mod twins;
pub mod whole;
pub mod words;

// The listings.
mod bounds;
mod builder;
mod chains;
pub mod choice;
mod damage;
pub mod forms;
pub mod generator;
mod random;
pub mod survey;
mod tables;
