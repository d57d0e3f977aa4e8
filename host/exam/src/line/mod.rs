//! The command line, told by a table: the rows are the constants `VERB` of the
//! verbs' files, above this folder, and come in as a parameter.
//!
//! | file          | what                                                   |
//! |---------------|--------------------------------------------------------|
//! | `table.rs`    | what a verb, an option and a request are               |
//! | `options.rs`  | every option, and what a request says by it            |
//! | `words.rs`    | numbers and stops as words say them                    |
//! | `operands.rs` | the networks and sheets of a request, its last operand |
//! | `near.rs`     | near misses of names                                   |
//! | `help.rs`     | what `--help` prints, by the table                     |
//! | `man.rs`, `completions.rs` | the manual page and what shells read, by it |
//! | `pages.rs`    | which of them is printed                               |
//! | `parser.rs`   | words as a request, by the table                       |

mod completions;
mod help;
mod man;
mod near;
pub mod operands;
pub mod options;
pub mod pages;
pub mod parser;
pub mod table;
pub mod words;
