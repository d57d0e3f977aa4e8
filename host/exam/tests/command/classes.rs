//! `exam classes`.

use crate::common::{exam, exam_with, P9};

#[test]
fn classes_prints_lines_or_rows() {
    let lines = "classes 2\nstop 0 weight 2 alike 0 1\nstop 2 weight 1 alike 2\n";
    exam_with(&["classes", "-", "--typed"], P9.as_bytes()).printed(lines, 0);
    let class = format!("class 0 0 2{}", " 255".repeat(61));
    let weight = format!("weight 2 0 1{}", " 0".repeat(61));
    let rows = format!("classes 2\n{class}\n{weight}\n");
    exam_with(&["classes", "--rows", "--typed", "-"], P9.as_bytes()).printed(&rows, 0);
}

/// Of a plan each stop has its name; the rows stay numbers.
#[test]
fn classes_of_a_plan() {
    let lines = "classes 5\nstop 0 weight 1 alike 0 'Church'\n\
                 stop 1 weight 2 alike 1 'Market' 2 'School'\n\
                 stop 3 weight 1 alike 3 'Station'\nstop 4 weight 1 alike 4 'Mill'\n\
                 stop 5 weight 1 alike 5 'Quarry'\n";
    exam(&["classes", "samples/village.plan"]).printed(lines, 0);
    let rows = exam(&["classes", "samples/village.hex", "--rows"]);
    exam(&["classes", "samples/village.plan", "--rows"]).printed(&rows.out, 0);
}
