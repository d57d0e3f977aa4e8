//! A refusal, printed and in words, with the command at fault: its bytes, what
//! they say, and its text line.

use super::named;
use super::streams::{put, say};
use crate::input::network::Network;
use crate::status::{Status, Trouble};
use engine::typed::{commands, pairs, CALL, EDITION, END, FOLLOW, LINE};
use engine::{Ground, Refusal, Sheet};

/// No command has more bytes.
const WIDEST: usize = 5;

/// A refusal: `refused 5 at 0` and nothing else on standard output, the words
/// on standard error.
pub fn refused(refusal: Refusal, network: &Network) -> Result<Status, Trouble> {
    refused_with(refusal, network, None)
}

/// The same with a text line more on standard error, for what isn't in the network.
pub fn refused_with(
    refusal: Refusal,
    network: &Network,
    more: Option<String>,
) -> Result<Status, Trouble> {
    let more = more.map_or(String::new(), |more| format!("\n  {more}"));
    say(&format!("{}{more}", explained(refusal, network)));
    put(format!("{refusal}\n"))?;
    Ok(Status::Refused)
}

/// A refusal where a sheet was handed over, which may be the one at fault.
pub fn refused_sheet(
    refusal: Refusal,
    network: &Network,
    sheet: &Sheet,
) -> Result<Status, Trouble> {
    let misfit = refusal.ground == Ground::SheetLength;
    let more = misfit.then(|| lengths(network, &[sheet]));
    refused_with(refusal, network, more)
}

/// What beside the network a board was asked for.
pub struct BoardAsked<'a> {
    pub sheet: &'a Sheet,
    /// `None` where nobody named one.
    pub stop: Option<u32>,
    /// `None` where it is one common cycle, which is never too long.
    pub length: Option<u32>,
}

/// A refusal where a board was asked for.
pub fn refused_board(
    refusal: Refusal,
    network: &Network,
    asked: BoardAsked,
) -> Result<Status, Trouble> {
    let more = match refusal.ground {
        Ground::SheetLength => Some(lengths(network, &[asked.sheet])),
        Ground::Stop if !refusal.is_of_file() => {
            let named = |stop| named::any_stop(&network.names, stop);
            asked.stop.map(|stop| format!("asked for: {}", named(stop)))
        }
        Ground::BoardLength => {
            let minutes = asked.length;
            minutes.map(|minutes| format!("asked for: {minutes} minutes"))
        }
        _ => None,
    };
    refused_with(refusal, network, more)
}

/// The refusal in words, for standard error.
pub fn explained(refusal: Refusal, network: &Network) -> String {
    let mut text = format!("exam: {refusal}: {}", refusal.words());
    if !refusal.is_of_file() {
        return text;
    }
    let mut place = refusal.place as usize;
    text += &format!("\n  {}, {}", network.name, at_fault(refusal, network));
    if refusal.ground == Ground::EndTooEarly {
        let (words, stated) = without_call(network, place);
        text += &format!("\n  {words}");
        place = stated;
    }
    if let Some(edition) = without_rides(refusal, network) {
        text += &format!(
            "\n  edition {edition} has no 46: state the call by 43, its minutes from the line's start"
        );
    }
    if let Some((number, line)) = network.text_line(place) {
        text += &format!("\n  text line {number}: {line}");
    }
    if let Some((from, to)) = run_over(refusal, network) {
        text += &format!(
            "\n  the command of text line {from} takes its last bytes from text line {to}"
        );
    }
    text
}

/// How long sheets are beside the number of lines that the engine read.
pub fn lengths(network: &Network, sheets: &[&Sheet]) -> String {
    let lines = engine::read(network.bytes()).map_or(0, |counts| counts.lines);
    let length = |sheet: &&Sheet| match sheet.bytes().len() {
        bytes if bytes % 4 == 0 => format!("{} starts", bytes / 4),
        bytes => format!("{bytes} bytes, 4 being a start"),
    };
    let lengths: Vec<String> = sheets.iter().map(length).collect();
    format!("lines: {lines}; sheet: {}", lengths.join("; other sheet: "))
}

/// The commands of a network before a place, each with its own.
fn above(network: &Network, place: usize) -> impl Iterator<Item = (usize, &[u8])> {
    let mut behind = 0;
    let file = network.bytes();
    let commands = commands(&file[..place.min(file.len())]).into_iter();
    commands.map(move |command| {
        let place = behind;
        behind += command.len();
        (place, command)
    })
}

/// The command at a place, if there is one.
fn command_at(network: &Network, place: usize) -> Option<&[u8]> {
    let behind = network.bytes().get(place..)?;
    let one = &behind[..behind.len().min(WIDEST)];
    commands(one).into_iter().next()
}

/// The bytes at the place of a refusal and what they say.
fn at_fault(refusal: Refusal, network: &Network) -> String {
    let place = refusal.place as usize;
    match command_at(network, place) {
        None => format!("nothing behind its {place} bytes"),
        // Behind the end there are bytes, and no commands.
        Some(command) if refusal.ground == Ground::ByteAfterEnd => {
            format!("byte {place}: {}", pairs(&command[..1]))
        }
        Some(command) => {
            let says = says(network, place, command);
            format!("byte {place}: {}{says}", pairs(command))
        }
    }
}

/// What a command says, if it is whole.
fn says(network: &Network, place: usize, command: &[u8]) -> String {
    let number = |high: u8, low: u8| u16::from_be_bytes([high, low]);
    let (line_name, stop_name) = (
        |line| named::line(&network.names, line),
        |stop| named::stop(&network.names, stop),
    );
    match *command {
        [EDITION, edition] => format!(" (edition {edition})"),
        [LINE, high, low] => {
            let line = line_name(lines_above(network, place));
            format!(" ({line}, period {})", number(high, low))
        }
        [CALL, line, stop, high, low] => {
            let (line, stop, offset) = (line_name(line), stop_name(stop), number(high, low));
            format!(" ({line}, {stop}, offset {offset})")
        }
        [FOLLOW, line, stop, high, low] => {
            let (line, stop, ride) = (line_name(line), stop_name(stop), number(high, low));
            format!(" ({line}, {stop}, ride {ride})")
        }
        [END] => " (the end)".to_string(),
        _ => String::new(),
    }
}

/// How many lines are stated before a place: at most 16 where the engine came so
/// far.
fn lines_above(network: &Network, place: usize) -> u8 {
    let stated = above(network, place).filter(|(_, command)| command[0] == LINE);
    stated.count() as u8
}

/// What the end at this place comes too early for, and where that is stated.
fn without_call(network: &Network, end: usize) -> (String, usize) {
    let calls = |line: u8| above(network, end).any(|(_, command)| is_call_of(command, line));
    let stated = above(network, end).filter(|(_, command)| command[0] == LINE);
    let mut silent = (0..).zip(stated).filter(|(line, _)| !calls(*line));
    match silent.next() {
        Some((line, (place, _))) => {
            let line = named::line(&network.names, line);
            (format!("{line} never calls"), place)
        }
        None => ("there is no line".to_string(), end),
    }
}

/// The edition that a ride was refused in: the file's second byte.
fn without_rides(refusal: Refusal, network: &Network) -> Option<u8> {
    match (refusal.ground, network.bytes()) {
        (Ground::RideRetired, [EDITION, edition, ..]) => Some(*edition),
        _ => None,
    }
}

fn is_call_of(command: &[u8], line: u8) -> bool {
    matches!(command, [CALL | FOLLOW, of, ..] if *of == line)
}

/// The first command up to the refused one whose bytes stand on two text lines,
/// and which: where a pair is missing, the next text line isn't at fault.
fn run_over(refusal: Refusal, network: &Network) -> Option<(usize, usize)> {
    let place = refusal.place as usize;
    let refused = match refusal.ground {
        Ground::ByteAfterEnd => None,
        _ => command_at(network, place).map(|command| (place, command)),
    };
    let commands = above(network, place).chain(refused);
    let mut text_lines = commands.filter_map(|(begin, command)| {
        let (from, _) = network.text_line(begin)?;
        let (to, _) = network.text_line(begin + command.len() - 1)?;
        Some((from, to))
    });
    text_lines.find(|(from, to)| from != to)
}
