//! What the lines of a transcript do not tell: the partners after each command.

use crate::board::Board;
use crate::command::{Command, commands};
use crate::transcript::play;

/// A line for each command: how many pairs and links there then are, and how many loads it gave another partner or none.
pub fn trace(stream: &[u8]) -> String {
    let mut board = Board::new();
    let mut text = String::new();
    for command in commands(stream).filter_map(|(_, command)| command.ok()) {
        let before = *board.partners();
        // a refused command changes nothing
        let _ = play(&mut board, command);
        let changed = (before.iter().zip(board.partners())).filter(|(old, new)| old != new);
        let (pairs, links) = (board.pairs().count(), board.link_count());
        text += &format!("{pairs} {links} {}\n", changed.count());
    }
    text
}

/// The stream with the partner that each departing load then has written after it, 65,535 for none: who departs with it
/// depends on the matching, and another matching of the same links needs to be told.
pub fn name_departed(stream: &[u8]) -> Vec<u8> {
    let mut board = Board::new();
    let mut named = Vec::new();
    for command in commands(stream).filter_map(|(_, command)| command.ok()) {
        command.write(&mut named);
        if let Command::Depart(a) = command {
            let partner = board.partner(a).ok().flatten();
            named.extend(partner.map_or(u16::MAX, u16::from).to_be_bytes());
        }
        let _ = play(&mut board, command);
    }
    named
}
