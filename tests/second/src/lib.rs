//! A second implementation of the CO2 credit book (40 CFR 1036), written
//! from the words of document 01 and the cards so that another one can be held
//! against it.
//!
//! `standards`, `figuring`, `limits`, `book`, `covering` and `postings` are the rules;
//! `text` and `listing` the terminal, `std_text` its tables, `written` a whole book as
//! text; `accounts` and `audit` the claims about a whole list of calls; `session` runs
//! a terminal session; `generate` writes sessions, tables and texts for testing;
//! `asked` and `room` serve the commands that run another program.

#![forbid(unsafe_code)]

pub mod accounts;
pub mod asked;
pub mod audit;
pub mod book;
pub mod covering;
pub mod figuring;
pub mod generate;
pub mod limits;
pub mod listing;
pub mod postings;
pub mod room;
pub mod session;
pub mod standards;
pub mod std_text;
pub mod text;
pub mod written;
