//! `exam draw`: a picture of a timetable.

use crate::hall::witness::Window;
use crate::input::network::Network;
use crate::line::operands::{check_svg, circle, networks, sheets, target};
use crate::line::options::{
    first, length, BYTES, CIRCLE, FROM, LENGTH, PLAN, SHEET_BYTES, SHEET_NUMBERS, TYPED,
};
use crate::line::table::{Request, Sheets, Verb};
use crate::output::fault::{refused_board, BoardAsked};
use crate::output::lines::shown;
use crate::output::named;
use crate::output::streams::{put, say};
use crate::output::target::Target;
use crate::picture::{self, Subject};
use crate::status::{Status, Trouble};
use engine::{Refusal, Sheet};

pub const VERB: Verb = Verb {
    name: "draw",
    operands: "NETWORK SHEET FILE.svg",
    networks: 1,
    sheets: Sheets::Exactly(1),
    last: Some(check_svg),
    options: &[
        &PLAN,
        &TYPED,
        &BYTES,
        &SHEET_NUMBERS,
        &SHEET_BYTES,
        &FROM,
        &LENGTH,
        &CIRCLE,
    ],
    summary: "a picture of a timetable",
    about: "\
Draws the timetable of a sheet: a strip for each served stop, a row in it for each
call there, and a mark for each arrival, whose colour and shape are its line's. The
two arrivals that make a stop's gap are joined and the minutes written; the stops
with the least gap are framed, and stops that always rate alike stand together. The
rating is the title. What is printed is the file, the rating and how many arrivals
are drawn.
  town.svg: gap 3 sum 201 arrivals 48

The picture begins at the minute of --from and ends before that minute plus --length.
Without --length it has one common cycle of the network, after which all comes again.

With --circle STOP it has that stop's arrivals alone, on a circle of one common cycle
with minute 0 on top: the corners of a regular polygon for each call, and the gap as
an arc from corner to corner. STOP is a number, 0 to 63, or the name that a plan gives
the stop.
  market.svg: stop 1 gap 3 arrivals 5

FILE.svg is written over if it is there; its name has to end in .svg, so that no slip
overwrites a sheet. A file named - is standard output, and then nothing else is
printed. Where something is refused no file is written.

A sheet that hasn't one start for each line: refused 15 at 0
A stop above 63: refused 8 at 0
A length above 10080: refused 22 at 0
",
    run,
};

/// The beginning of the ids in a picture that has a file to itself.
const ID: &str = "exam";

/// More marks than this can't be told apart any more.
const MANY: usize = 20_000;

/// What goes before an element to make a file of it.
const PROLOG: &str = "<?xml version=\"1.0\" encoding=\"UTF-8\"?>\n";

/// A picture, and what is printed of it behind its file's name.
struct Drawn {
    picture: String,
    line: String,
    /// What there is to say on standard error.
    remark: Option<String>,
}

fn run(request: &Request) -> Result<Status, Trouble> {
    let [network] = networks(request)?;
    let [sheet] = sheets(request)?;
    let stop = circle(request, &network)?;
    let drawn = match stop {
        Some(stop) => on_circle(&network, &sheet, stop),
        None => in_strips(&network, &sheet, request),
    };
    match drawn {
        Ok(drawn) => hand_out(drawn, &target(request)),
        Err(refusal) => {
            let asked = BoardAsked {
                sheet: &sheet,
                stop,
                length: length(request),
            };
            refused_board(refusal, &network, asked)
        }
    }
}

fn hand_out(drawn: Drawn, target: &Target) -> Result<Status, Trouble> {
    target.write(&format!("{PROLOG}{}\n", drawn.picture))?;
    if let Some(name) = target.name() {
        put(format!("{name}: {}\n", drawn.line))?;
    }
    if let Some(remark) = drawn.remark {
        say(&format!("exam: {remark}"));
    }
    Ok(Status::Done)
}

/// All stops, over the minutes that are asked for.
fn in_strips(network: &Network, sheet: &Sheet, request: &Request) -> Result<Drawn, Refusal> {
    let file = network.bytes();
    let rating = engine::rate(file, sheet)?;
    let length = match length(request) {
        Some(length) => length,
        None => engine::read(file)?.cycle,
    };
    let first = first(request);
    let subject = Subject {
        network,
        sheet,
        window: Some(Window { first, length }),
        id: ID,
    };
    let arrivals = picture::arrivals(&subject)?;
    let words = || format!("{arrivals} arrivals are drawn; --length N draws fewer");
    Ok(Drawn {
        picture: picture::strips(&subject)?,
        line: format!("{} arrivals {arrivals}", shown(rating)),
        remark: (arrivals > MANY).then(words),
    })
}

/// One stop, over a common cycle. The engine is asked for its board first: it refuses a stop
/// that there can't be.
fn on_circle(network: &Network, sheet: &Sheet, stop: u32) -> Result<Drawn, Refusal> {
    let file = network.bytes();
    let gaps = engine::gaps(file, sheet)?;
    let cycle = engine::read(file)?.cycle;
    let arrivals = engine::board(file, sheet, stop, 0, cycle)?.len();
    // It was accepted, and so is below 64.
    let number = u8::try_from(stop).unwrap_or(u8::MAX);
    let subject = Subject {
        network,
        sheet,
        window: None,
        id: ID,
    };
    let gap = gaps.at(number);
    let unserved = || format!("no line calls at {}", named::stop(&network.names, number));
    Ok(Drawn {
        picture: picture::circle(&subject, number)?,
        line: match gap {
            Some(gap) => format!("stop {stop} gap {gap} arrivals {arrivals}"),
            None => format!("stop {stop} arrivals {arrivals}"),
        },
        remark: gap.is_none().then(unserved),
    })
}
