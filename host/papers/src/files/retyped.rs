//! The same network typed in another way.

use super::commands::{Command, Stated};
use super::dice::Dice;
use super::valid::call_or_follow;
use crate::sections::network::FIRST_EDITION;

/// The same network typed in another way: its edition, which the first may leave out,
/// its lines in their order, its calls in any, each after its line.
pub fn retyped(dice: &mut Dice, stated: &Stated) -> Vec<Command> {
    let mut waiting = stated.calls.clone();
    dice.shuffle(&mut waiting);
    let edition = stated.edition;
    let mut commands = Vec::new();
    if edition != FIRST_EDITION || dice.once_in(4) {
        commands.push(Command::Edition { edition });
    }
    let mut typed = Stated::by(&commands);
    loop {
        let lines = typed.periods.len();
        let all_lines = lines == stated.periods.len();
        let ready = waiting.iter().position(|call| usize::from(call.0) < lines);
        let command = match ready {
            Some(at) if all_lines || dice.once_in(2) => {
                let (line, stop, offset) = waiting.remove(at);
                call_or_follow(dice, &typed, line, stop, offset)
            }
            _ if all_lines => {
                commands.push(Command::End);
                return commands;
            }
            _ => Command::Line {
                period: stated.periods[lines],
            },
        };
        typed.add(command);
        commands.push(command);
    }
}
