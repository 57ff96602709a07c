//! Subgroups of free groups: Nielsen reduction, membership and what goes with them.
//! A plain Rust version, written from the requirements alone (docs/REQUIREMENTS.md), to compare the
//! proved library with. All that judges is the plain reading of them; quick_search.rs and
//! quick_text.rs serve timing. The calls are tidy, reduce, test, ask, member, replay, multiply, show,
//! read_text, write_text, to_numbers, from_numbers, tidy_numbers and trace.

pub mod actions;
pub mod answers;
pub mod asking;
pub mod bound;
pub mod decision;
pub mod elements;
pub mod factoring;
pub mod from_numbers;
pub mod graph;
pub mod graph_sheets;
pub mod logs;
pub mod made_logs;
pub mod measured;
pub mod membership;
pub mod moves;
pub mod multiply;
pub mod number_sheets;
pub mod numbers;
pub mod program;
pub mod quick_search;
pub mod quick_text;
pub mod random;
pub mod random_graphs;
pub mod random_numbers;
pub mod random_text;
pub mod read_text;
pub mod records;
pub mod reducedness;
pub mod reduction;
pub mod refusals;
pub mod replay;
pub mod sheets;
pub mod show;
pub mod small;
pub mod text;
pub mod text_sheets;
pub mod tidy;
pub mod tidy_numbers;
pub mod to_numbers;
pub mod tracing;
pub mod words;
pub mod write_text;

#[cfg(test)]
mod consistency;
#[cfg(test)]
mod graph_tests;
#[cfg(test)]
mod independence_tests;
#[cfg(test)]
mod log_tests;
#[cfg(test)]
mod number_tests;
#[cfg(test)]
mod refusal_tests;
#[cfg(test)]
mod text_tests;

pub use answers::Answer;
pub use asking::ask;
pub use from_numbers::from_numbers;
pub use membership::member;
pub use multiply::multiply;
pub use read_text::read_text;
pub use reducedness::test;
pub use reduction::reduce;
pub use replay::{replay, Direction};
pub use show::show;
pub use tidy::tidy;
pub use tidy_numbers::tidy_numbers;
pub use to_numbers::to_numbers;
pub use tracing::{trace, Edge};
pub use write_text::write_text;
