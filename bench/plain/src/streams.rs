//! The streams that are measured.

use crate::board::{Board, LOADS, MOST_LINKS};
use crate::command::{Command, LONGEST_STREAM};
use crate::random::Random;
use crate::transcript::play;
use std::iter;

const SEED: u64 = 1;

/// The stream of this name: as many whole commands as fit.
pub fn make(name: &str) -> Option<Vec<u8>> {
    Some(match name {
        "random" => fill(Maker::commands(Maker::next_random)),
        "hub" => fill(Maker::commands(Maker::next_of_hubs)),
        "full-book" => fill(Maker::commands(Maker::next_at_limit)),
        "six-loads" => fill(round_of_sixes().into_iter().cycle()),
        _ => return None,
    })
}

fn fill(commands: impl Iterator<Item = Command>) -> Vec<u8> {
    let mut stream = Vec::new();
    for command in commands {
        if stream.len() + command.size() > LONGEST_STREAM {
            break;
        }
        command.write(&mut stream);
    }
    stream
}

/// The shape of six loads is built on each six in turn, and its first link removed; then the other links are.
fn round_of_sixes() -> Vec<Command> {
    const LINKS: [(u16, u16); 6] = [(0, 1), (2, 3), (0, 2), (1, 3), (1, 5), (3, 4)];
    let sixes = (0..LOADS as u16 - 5).step_by(6);
    let built = sixes.clone().flat_map(|six| {
        let links = LINKS.map(|(a, b)| Command::Link(six + a, six + b));
        links.into_iter().chain([Command::Unlink(six, six + 1)])
    });
    let removed = sixes.flat_map(|six| {
        let others = LINKS.iter().skip(1);
        others.map(move |(a, b)| Command::Unlink(six + a, six + b))
    });
    built.chain(removed).collect()
}

/// Makes commands on a board of its own, so that it can name links that there are.
struct Maker {
    random: Random,
    board: Board,
    made: usize,
}

impl Maker {
    fn commands(next: fn(&mut Maker) -> Command) -> impl Iterator<Item = Command> {
        let mut maker = Maker {
            random: Random::new(SEED),
            board: Board::new(),
            made: 0,
        };
        iter::repeat_with(move || {
            let command = next(&mut maker);
            // a refused command belongs to the stream too
            let _ = play(&mut maker.board, command);
            maker.made += 1;
            command
        })
    }

    fn load(&mut self) -> u16 {
        self.random.below(LOADS as u16)
    }

    fn are_linked(&self, a: u16, b: u16) -> bool {
        self.board.linked_loads(a as u8).has(b as u8)
    }

    /// Two loads that are linked, if the first that is thought of has a link.
    fn linked_two(&mut self) -> Option<(u16, u16)> {
        let a = self.random.below(LOADS as u16);
        let linked: Vec<u8> = self.board.linked_loads(a as u8).loads().collect();
        let b = self.random.one_of(linked.into_iter())?;
        Some((a, u16::from(b)))
    }

    fn unlink_some(&mut self) -> Command {
        let (a, b) = match self.linked_two() {
            Some(two) => two,
            None => (self.load(), self.load()),
        };
        Command::Unlink(a, b)
    }

    /// First 2,000 links. Then of 1,000 commands 500 link and 235 unlink, 7 withdraw, 4 depart, 234 ask, and 20 are
    /// mistakes: a load that there is not, or links that there are not.
    fn next_random(&mut self) -> Command {
        let (a, b) = (self.load(), self.load());
        if self.made < 2000 {
            return Command::Link(a, b);
        }
        match self.random.below(1000) {
            0..500 => Command::Link(a, b),
            500..735 => self.unlink_some(),
            735..742 => Command::Withdraw(a),
            742..746 => Command::Depart(a),
            746..980 => Command::Partner(a),
            980..985 => Command::Link(a, b + LOADS as u16),
            985..990 => Command::Partner(a + LOADS as u16),
            _ => Command::Unlink(a, b),
        }
    }

    /// First 248 loads are linked in twos. Then seven hubs are linked with three quarters of them: of 1,000 commands 999 are
    /// for a hub and another load, which are linked, or where they are, a third unlink them and the rest ask; and 1
    /// withdraws a hub. The loads are odd in number, so that hubs come to be free and displace others.
    fn next_of_hubs(&mut self) -> Command {
        const OTHERS: u16 = 248;
        const HUBS: u16 = 7;
        let hub = OTHERS + self.random.below(HUBS);
        let other = self.random.below(OTHERS);
        if self.made < usize::from(OTHERS / 2) {
            let a = 2 * self.made as u16;
            return Command::Link(a, a + 1);
        }
        match self.random.below(1000) {
            0..999 if !self.are_linked(hub, other) => Command::Link(hub, other),
            0..333 => Command::Unlink(hub, other),
            333..666 => Command::Partner(hub),
            666..999 => Command::Partner(other),
            _ => Command::Withdraw(hub),
        }
    }

    /// Links until the book is full. From there on a third of the commands link and are refused, a third unlink, and a
    /// third ask; after each that unlinks, the book is filled again.
    fn next_at_limit(&mut self) -> Command {
        let (a, b) = (self.load(), self.load());
        if self.board.link_count() < MOST_LINKS {
            return Command::Link(a, b);
        }
        match self.random.below(3) {
            0 => Command::Link(a, b),
            1 => self.unlink_some(),
            _ => Command::Partner(a),
        }
    }
}
