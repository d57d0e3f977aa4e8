//! The proved engine's program `best` beside `sections::best`: the same input,
//! the same line.

mod cases;
mod given;
mod inputs;
mod outputs;
mod seeded;
