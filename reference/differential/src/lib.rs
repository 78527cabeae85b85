//! What is needed to hold the planner, a static library, against the second
//! implementation: its C functions, buffers to lend, comparisons, and the plain
//! fast versions of the benchmark.

pub mod both;
pub mod calls;
pub mod fast;
pub mod lent;
pub mod library;
pub mod outcomes;
