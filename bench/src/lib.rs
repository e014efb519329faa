//! The proved calls against plain Rust with the same checks.

pub mod bytes;
pub mod growth;
pub mod leaf;
pub mod manager;
pub mod plain;
pub mod report;
pub mod tables;
pub mod timing;
