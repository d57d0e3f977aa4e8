//! `exam board`: every arrival at a stop under a sheet.

use crate::input::network::Network;
use crate::line::operands::{networks, sheets, stop};
use crate::line::options::{
    first, length, BYTES, FROM, LENGTH, PLAN, SHEET_BYTES, SHEET_NUMBERS, TYPED,
};
use crate::line::table::{Request, Sheets, Verb};
use crate::line::words::check_stop;
use crate::output::arrivals::rows;
use crate::output::columns::ended;
use crate::output::fault::{refused, refused_board, BoardAsked};
use crate::output::named;
use crate::output::streams::{put, say};
use crate::status::{Status, Trouble};
use engine::plan::Names;
use engine::Arrival;

pub const VERB: Verb = Verb {
    name: "board",
    operands: "NETWORK SHEET STOP",
    networks: 1,
    sheets: Sheets::Exactly(1),
    last: Some(check_stop),
    options: &[
        &PLAN,
        &TYPED,
        &BYTES,
        &SHEET_NUMBERS,
        &SHEET_BYTES,
        &FROM,
        &LENGTH,
    ],
    summary: "every arrival at a stop under a sheet",
    about: "\
Lists every arrival at a stop under a sheet, by time and then line: the minute,
counted as the sheet's starts are, its day and time of day, minute 0 being 00:00
of day 0, and the line, with the names of a plan.
  stop 0 from -10 length 20 arrivals 3  Market
  time -7  day -1  23:53  line 0  Red
  time -3  day -1  23:57  line 1  Green
  time  8  day  0  00:08  line 0  Red
A line that passes the stop twice stands there as often as it arrives, also at one
minute. Where nothing arrives the first text line stands alone; standard error says
where no line ever calls.

STOP is a number, 0 to 63, or the name that a plan gives the stop. The list begins
at the minute of --from and ends before that minute plus --length. Without --length
it has one common cycle of the network, after which all comes again.

A sheet that hasn't one start for each line: refused 15 at 0
A stop above 63: refused 8 at 0
A length above 10080: refused 22 at 0
",
    run,
};

/// What a board was asked for.
struct Asked {
    stop: u32,
    first: i32,
    length: u32,
}

fn run(request: &Request) -> Result<Status, Trouble> {
    let [network] = networks(request)?;
    let [sheet] = sheets(request)?;
    let file = network.bytes();
    let stop = stop(request, &network)?;
    let cycle = || engine::read(file).map(|counts| counts.cycle);
    let length = match length(request).map_or_else(cycle, Ok) {
        Ok(length) => length,
        Err(refusal) => return refused(refusal, &network),
    };
    let first = first(request);
    let asked = Asked {
        stop,
        first,
        length,
    };
    match engine::board(file, &sheet, stop, first, length) {
        Ok(arrivals) => print(&asked, &arrivals, &network),
        Err(refusal) => {
            let asked = BoardAsked {
                sheet: &sheet,
                stop: Some(stop),
                length: Some(length),
            };
            refused_board(refusal, &network, asked)
        }
    }
}

fn print(asked: &Asked, arrivals: &[Arrival], network: &Network) -> Result<Status, Trouble> {
    let head = asked.head(arrivals.len(), &network.names);
    put(head + &rows(arrivals, &network.names).concat())?;
    if arrivals.is_empty() && asked.is_unserved(network) {
        let stop = named::any_stop(&network.names, asked.stop);
        say(&format!("exam: no line calls at {stop}"));
    }
    Ok(Status::Done)
}

impl Asked {
    /// The board's own text line, with the name of its stop.
    fn head(&self, count: usize, names: &Names) -> String {
        let (stop, first, length) = (self.stop, self.first, self.length);
        let head = format!("stop {stop} from {first} length {length} arrivals {count}");
        ended(head, self.number().and_then(|stop| names.stop(stop)))
    }

    /// Whether no line of an accepted network calls there.
    fn is_unserved(&self, network: &Network) -> bool {
        let served = |stop| {
            let contents = engine::contents(network.bytes());
            contents.is_ok_and(|contents| !contents.at_stop(stop).is_empty())
        };
        !self.number().is_some_and(served)
    }

    /// The stop as a network may have it; a larger one has no name and no call.
    fn number(&self) -> Option<u8> {
        u8::try_from(self.stop).ok()
    }
}
