//! The engine behind its safe wrapper beside the independent implementation, on
//! seeded files and sheets of every kind, and its optimum beside every
//! timetable of small networks.
//!
//! `EXAM_CASES=1000000 cargo test --release --offline --test engine` is the
//! longer run. A case is made from its number alone; a failure names it.

mod longest;
mod networks;
mod optimum;
mod refusals;
mod seeded;
