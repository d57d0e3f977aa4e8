//! Document 01, "Edges and cases", the examples of source 000, and cases by hand
//! for the requests of document 02.

mod archive;
mod best;
mod board;
mod cycle;
mod editions;
mod gaps;
mod given;
mod hundred;
mod loops;
mod network;
mod paper;
mod rating;
mod rows;
mod sheets;
mod source;
mod walk;
mod wanted;
