//! What a verb is given: networks and sheets, from files or standard input.

pub mod form;
pub mod network;
pub mod sheet;
pub mod source;
