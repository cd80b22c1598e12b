//! The rules of Burgeehoist written a second time, from the papers alone.
//!
//! Nothing here was written with the proved definitions in sight: the tests in
//! `tests/` run both on the same inputs and compare every answer and every lent
//! byte, and the programs in `benches/` compare their speed.

pub mod boundary;
pub mod brute;
pub mod brute_rotation;
pub mod brute_rpc;
pub mod charset;
pub mod command_line;
pub mod compare;
pub mod fault;
pub mod frame;
pub mod generate;
pub mod hex;
pub mod hosts;
pub mod json;
pub mod judge;
pub mod lent;
pub mod limits;
pub mod log;
pub mod measure;
pub mod pages;
pub mod painted_stack;
pub mod path;
pub mod pattern;
pub mod policy;
pub mod random;
pub mod refusal;
pub mod request;
pub mod rotation;
pub mod rpc;
pub mod season;
pub mod slip;
pub mod table;
pub mod tally;
pub mod vectors;
pub mod verdict;
pub mod word;
