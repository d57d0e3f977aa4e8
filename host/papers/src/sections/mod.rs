//! Document 01, section by section, and what document 02 adds.
//!
//! | file          | section of document 01                              |
//! |---------------|-----------------------------------------------------|
//! | `network.rs`  | The network file; Grounds for refusing, 1 to 14;    |
//! |               | document 02, A.6: editions, 19 to 21                |
//! | `rating.rs`   | Gap and rating                                      |
//! | `classes.rs`  | Classes of stops; ground 17                         |
//! | `caps.rs`     | Caps                                                |
//! | `walk.rs`     | The walk; ground 16                                 |
//! | `sheets.rs`   | Sheets; ground 15                                   |
//! | `best.rs`     | Edges and cases: what the program `best` prints     |
//! | `archive.rs`  | document 02, A.1: the archive form; ground 18       |
//! | `wanted.rs`   | document 02, A.3: a wanted gap; ground 16           |
//! | `hundred.rs`  | document 02, A.5: marks out of a hundred            |
//! | `board.rs`    | document 02, A.7: a board for one stop; grounds 8   |
//! |               | of a stop that is asked for, 22 and 23              |
//! | `gaps.rs`     | Gap and rating: the gap of each stop; ground 15     |

pub mod archive;
pub mod best;
pub mod board;
pub mod caps;
pub mod classes;
pub mod gaps;
pub mod hundred;
pub mod network;
pub mod rating;
pub mod sheets;
pub mod walk;
pub mod wanted;
