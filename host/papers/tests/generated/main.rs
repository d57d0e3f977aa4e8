//! Generated files and sheets: what holds of every one of them (document 00,
//! demands 1 to 3), and that the generator makes what it says.

mod archive;
mod board;
mod classes;
mod files;
mod gaps;
mod hundred;
mod ratings;
mod search;
mod sheets;
mod wanted;
