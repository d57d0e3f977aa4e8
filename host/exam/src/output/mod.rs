//! What a verb says: answers, messages and signs of life.

pub mod arrivals;
pub mod columns;
pub mod csv;
pub mod escape;
pub mod fault;
pub mod json;
pub mod lines;
pub mod named;
pub mod names;
pub mod streams;
pub mod target;
pub mod watch;
pub mod xml;
