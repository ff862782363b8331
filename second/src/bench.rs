//! The bench of document 01: its files, the lines it prints, and tools around both.

pub mod check;
pub mod coverage;
pub mod file;
pub mod line;
pub mod malformed;
pub mod random;
pub mod run;
pub mod scenario;
pub mod stored;
pub mod text;
pub mod transcript;
