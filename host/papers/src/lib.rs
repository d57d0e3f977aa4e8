//! The papers written out in plain Rust from documents 01 and 02 and source 000
//! alone, to compare the proved engine with, and what makes the comparison.
//!
//! * [`sections`] is the independent implementation, one file for each section
//!   of document 01 and for each request of document 02. It uses nothing else
//!   here.
//! * [`by_lines`] is that implementation as it stood before loop routes, which on
//!   files without loops all calls still agree with.
//! * [`before_editions`] is the reading as it stood before editions, by which files
//!   without the command `56` are still read.
//! * [`files`] makes network files and sheets, good and bad, from a seed, and
//!   [`small`] networks so small that every timetable can be rated.
//! * [`answers`] has the papers' answers in the types of the engine's wrapper.
//! * [`plain`] is a hall's calls in quick Rust by hand, [`strong`] the walk, and
//!   [`measure`] measures the engine's calls beside the former.
//! * [`program`] runs the proved engine's program `best`, and [`child`] ends a
//!   process that hangs.

#![forbid(unsafe_code)]

pub mod answers;
pub mod before_editions;
pub mod by_lines;
pub mod child;
pub mod files;
pub mod measure;
pub mod plain;
pub mod program;
pub mod sections;
pub mod small;
pub mod strong;
