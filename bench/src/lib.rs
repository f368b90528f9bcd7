//! Independent plain Rust to hold the static library against: the rules worked naively, and two rivals in speed.
pub mod array;
pub mod block;
pub mod calls;
#[cfg(not(test))]
pub mod ffi;
pub mod job;
pub mod naive;
pub mod plain_tree;
pub mod random_jobs;
pub mod seeded;
#[cfg(test)]
mod tests;
