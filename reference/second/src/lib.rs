//! The second implementation of the Walsh signature planner, written from the
//! paper alone: it knows nothing of the planner's code and links none of it.
//! With it come the texts that tests draw and the stored cases.

pub mod bridge_texts;
pub mod circuits;
pub mod devices;
pub mod hidden_texts;
pub mod lines;
pub mod netlist;
pub mod plan;
pub mod random;
pub mod reading;
pub mod report;
pub mod signed_texts;
pub mod table_texts;
pub mod tables;
pub mod vectors;
pub mod walsh;
pub mod wide_texts;
