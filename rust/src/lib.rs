//! A model of the grain market.
//!
//! The model reads request files, deals them on a book under its layers and
//! prints what came of it. Beside it stand a generator of request files and a
//! judge, which holds a listing against the market's rules without dealing
//! anything itself.

pub mod bench;
pub mod book;
pub mod compare;
pub mod format;
pub mod generate;
pub mod judge;
pub mod ledger;
pub mod listing;
pub mod pile;
pub mod random;
pub mod refusal;
