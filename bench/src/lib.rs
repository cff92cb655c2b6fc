//! Benchmarks of the proved store beside the published Rust and a plain program of the same rules.
pub mod grow;
pub mod plain;
pub mod primitives;
pub mod profile;
pub mod report;
#[cfg(test)]
mod tests;
pub mod timing;
pub mod typed;
