//! Document 01 by lines, as it stood before loop routes (document 02, A.2): no
//! line calls twice at a stop, and everything goes by lines and pairs of lines.
//! It stays as a witness: on every file that it accepts, all calls answer as
//! they did, tries included, so that certificates issued before stand. Nothing
//! here is brought up to date by later requests.

pub mod archive;
pub mod caps;
pub mod classes;
pub mod network;
pub mod rating;
pub mod walk;
