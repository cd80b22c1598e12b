//! Generated inputs, shared by the tests and the benchmarks.

pub mod any;
pub mod damage;
pub mod log;
pub mod path;
pub mod policy;
pub mod policy_fault;
pub mod rotation;
pub mod short;
pub mod table;
pub mod table_fault;
pub mod worst_log;
pub mod worst_tree;
pub mod yard;
