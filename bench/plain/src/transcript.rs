//! The lines that answer a stream: one for each command, then one for each pair.

use crate::board::{Board, Refusal};
use crate::command::{Command, Fault, commands};

pub fn transcript(stream: &[u8]) -> Vec<u8> {
    let mut board = Board::new();
    let mut text = Vec::with_capacity(2 * stream.len());
    for (place, command) in commands(stream) {
        match command {
            Ok(command) => push_answer(&mut text, play(&mut board, command), place),
            Err(fault) => push_refusal(&mut text, fault_words(fault), place),
        }
    }
    push_pairs(&mut text, &board);
    text
}

pub enum Answer {
    Done,
    Partner(Option<u8>),
}

pub fn play(board: &mut Board, command: Command) -> Result<Answer, Refusal> {
    match command {
        Command::Link(a, b) => board.link(a, b)?,
        Command::Unlink(a, b) => board.unlink(a, b)?,
        Command::Withdraw(a) => board.withdraw(a)?,
        Command::Depart(a) => {
            board.depart(a)?;
        }
        Command::Partner(a) => return board.partner(a).map(Answer::Partner),
    }
    Ok(Answer::Done)
}

fn push_answer(text: &mut Vec<u8>, answer: Result<Answer, Refusal>, place: usize) {
    match answer {
        Ok(Answer::Done) => text.extend(b"ok\n"),
        Ok(Answer::Partner(None)) => text.extend(b"alone\n"),
        Ok(Answer::Partner(Some(b))) => {
            text.extend(b"with ");
            push_number(text, usize::from(b));
            text.push(b'\n');
        }
        Err(refusal) => push_refusal(text, refusal_words(refusal), place),
    }
}

fn push_refusal(text: &mut Vec<u8>, words: &str, place: usize) {
    text.extend(words.as_bytes());
    push_number(text, place);
    text.push(b'\n');
}

fn refusal_words(refusal: Refusal) -> &'static str {
    match refusal {
        Refusal::NoSuchLoad => "no 04 board ",
        Refusal::SameLoad => "no 05 board ",
        Refusal::AlreadyLinked => "no 06 book ",
        Refusal::NotLinked => "no 07 book ",
        Refusal::BookFull => "no 10 book ",
        Refusal::NoPartner => "no 11 board ",
    }
}

fn fault_words(fault: Fault) -> &'static str {
    match fault {
        Fault::Unknown => "no 12 stream ",
        Fault::CutShort => "no 13 stream ",
    }
}

fn push_pairs(text: &mut Vec<u8>, board: &Board) {
    for (a, b) in board.pairs() {
        push_number(text, usize::from(a));
        text.push(b' ');
        push_number(text, usize::from(b));
        text.push(b'\n');
    }
}

fn push_number(text: &mut Vec<u8>, n: usize) {
    if n >= 10 {
        push_number(text, n / 10);
    }
    text.push(b'0' + (n % 10) as u8);
}
