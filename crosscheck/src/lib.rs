//! A separate settlement of the effectiveness test ledger.
//!
//! Written from document 01 and change requests 1 to 6 alone, so that it can
//! disagree with the product. Each module is one section of document 01, or
//! one change request; "rule N" means refusal N.

#![forbid(unsafe_code)]
#![warn(missing_docs)]

pub mod account;
pub mod book;
pub mod books;
pub mod calls;
pub mod choosing;
pub mod days;
pub mod demand3;
pub mod every_date;
pub mod ledger;
pub mod limits;
pub mod point;
pub mod records;
pub mod refusals;
pub mod report;
pub mod slots;
pub mod terms;
pub mod text;
pub mod writing;
