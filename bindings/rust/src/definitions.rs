//! The words in which contracts are written, for reading the blocks "Proved".
#![doc = include_str!("definitions.md")]
