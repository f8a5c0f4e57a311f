//! Reads the pages, the sources and the definitions, for the tests that hold the one to the others.

#![forbid(unsafe_code)]

pub mod believed;
pub mod cited;
pub mod contracts;
pub mod definitions;
pub mod markdown;
pub mod sources;
pub mod tree;
