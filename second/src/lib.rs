//! A second program for the purse, written from the standards and from the paper, not from the
//! proved code. It makes test inputs and the answers that the proved programs must give.

pub mod bench;
pub mod cipher_tests;
pub mod des;
pub mod hex;
pub mod known;
pub mod modes;
pub mod purse;
pub mod random;
pub mod terminal;
