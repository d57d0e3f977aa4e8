//! `exam classes`: which stops always rate alike.

use crate::line::operands::networks;
use crate::line::options::{BYTES, PLAN, ROWS, TYPED};
use crate::line::table::{Request, Sheets, Verb};
use crate::output::fault::refused;
use crate::output::lines::joined;
use crate::output::named;
use crate::output::streams::put;
use crate::status::{Status, Trouble};
use engine::plan::Names;
use engine::Classes;

pub const VERB: Verb = Verb {
    name: "classes",
    operands: "NETWORK",
    networks: 1,
    sheets: Sheets::Exactly(0),
    last: None,
    options: &[&PLAN, &TYPED, &BYTES, &ROWS],
    summary: "which stops always rate alike",
    about: "\
Prints the number of classes of stops that rate alike under every timetable, and
for each class its lowest stop, how many stops it has, and which.
  classes 2
  stop 0 weight 2 alike 0 1
  stop 2 weight 1 alike 2
Of a plan the stops have their names: alike 0 'Market' 1 'School'
With --rows, for each stop 0 to 63 the lowest stop alike to it (255 if unserved),
then at each lowest stop the size of its class (0 elsewhere):
  class 0 0 2 255 ..
  weight 2 0 1 0 ..
",
    run,
};

fn run(request: &Request) -> Result<Status, Trouble> {
    let [network] = networks(request)?;
    let classes = match engine::classes(network.bytes()) {
        Ok(classes) => classes,
        Err(refusal) => return refused(refusal, &network),
    };
    let text = match request.has(&ROWS) {
        true => rows(&classes),
        false => class_lines(&classes, &network.names),
    };
    put(format!("classes {}\n{text}", classes.count))?;
    Ok(Status::Done)
}

/// The two rows, 64 numbers each.
fn rows(classes: &Classes) -> String {
    let (class_row, weight_row) = (joined(&classes.class_row), joined(&classes.weight_row));
    format!("class {class_row}\nweight {weight_row}\n")
}

/// For each class its lowest stop, its weight and all its stops. The rows say no
/// less, but nobody reads 128 numbers with pleasure.
fn class_lines(classes: &Classes, names: &Names) -> String {
    let mut lines = String::new();
    for (lowest, weight) in (0..).zip(classes.weight_row) {
        let alike = (0..).zip(classes.class_row);
        let stops: Vec<String> = alike
            .filter(|(_, class)| *class == lowest)
            .map(|(stop, _)| named::with(stop, names.stop(stop)))
            .collect();
        if weight > 0 {
            lines += &format!("stop {lowest} weight {weight} alike {}\n", joined(&stops));
        }
    }
    lines
}
