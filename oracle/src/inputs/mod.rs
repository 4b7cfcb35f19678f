//! The inputs, drawn from a seed: what a lot, a matrix, a row of sets or a table of coordinates may look like.

pub mod coordinates;
pub mod distances;
pub mod lots;
pub mod matrices;
pub mod sets;
