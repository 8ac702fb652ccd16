//! The oracle: the Rust as judge, an independent reading of document 01, and grammars to hold them to.

pub mod answers;
pub mod bits;
pub mod builder;
pub mod cases;
pub mod compare;
pub mod corpus;
pub mod edits;
pub mod explain;
pub mod gen;
pub mod image;
pub mod judge;
pub mod model;
pub mod notation;
pub mod record;
pub mod rng;
pub mod stream;
