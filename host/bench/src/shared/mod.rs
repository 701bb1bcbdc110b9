//! What the two engines of the benchmark have in common: everything around a step. They differ in
//! how a step finds what is due and what arrives where, and in nothing else.

pub mod advance;
pub mod channels;
pub mod deciding;
pub mod feed;
pub mod held;
pub mod keys;
pub mod lights;
pub mod model_file;
pub mod tables;
pub mod trace_records;
pub mod unchecked;
