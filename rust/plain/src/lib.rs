//! The rules of documents 01 and 02 in plain Rust. It was written from their sentences alone, so that what it answers can be
//! held against what the proved library answers, word by word.
//!
//! Of document 02: L1, L3, L4, L8 and L13 in `rules`, L2 in `book`, L6 in `salvage`, L11 in `wave_rules`, L12 in `report`. [`Plain`]
//! is the build that the bench console plays.

pub mod book;
pub mod build;
pub mod filter;
pub mod report;
pub mod rules;
pub mod salvage;
pub mod wave;

pub use build::Plain;
