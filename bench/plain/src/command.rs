//! The commands of a stream, as bytes.

pub const LONGEST_STREAM: usize = 65_536;

#[derive(Clone, Copy, PartialEq, Eq, Debug)]
pub enum Command {
    Link(u16, u16),
    Unlink(u16, u16),
    Withdraw(u16),
    Depart(u16),
    Partner(u16),
}

/// Why no command can be read.
#[derive(Clone, Copy, PartialEq, Eq, Debug)]
pub enum Fault {
    Unknown,
    CutShort,
}

impl Command {
    pub fn write(self, out: &mut Vec<u8>) {
        let (code, a, b) = match self {
            Command::Link(a, b) => (1, a, Some(b)),
            Command::Unlink(a, b) => (2, a, Some(b)),
            Command::Withdraw(a) => (3, a, None),
            Command::Depart(a) => (4, a, None),
            Command::Partner(a) => (5, a, None),
        };
        out.push(code);
        out.extend(a.to_be_bytes());
        out.extend(b.iter().flat_map(|b| b.to_be_bytes()));
    }

    pub fn size(self) -> usize {
        match self {
            Command::Link(..) | Command::Unlink(..) => 5,
            Command::Withdraw(_) | Command::Depart(_) | Command::Partner(_) => 3,
        }
    }
}

/// The commands of a stream, each with its place. A fault is the last.
pub struct Commands<'a> {
    stream: &'a [u8],
    place: usize,
}

pub fn commands(stream: &[u8]) -> Commands<'_> {
    Commands { stream, place: 0 }
}

impl Iterator for Commands<'_> {
    type Item = (usize, Result<Command, Fault>);

    fn next(&mut self) -> Option<Self::Item> {
        let place = self.place;
        let rest = self.stream.get(place..).filter(|rest| !rest.is_empty())?;
        let command = read(rest);
        self.place = command.map_or(self.stream.len(), |command| place + command.size());
        Some((place, command))
    }
}

/// The command that the bytes begin with.
fn read(bytes: &[u8]) -> Result<Command, Fault> {
    let load = |high, low| u16::from_be_bytes([high, low]);
    match *bytes {
        [1, a, b, c, d, ..] => Ok(Command::Link(load(a, b), load(c, d))),
        [2, a, b, c, d, ..] => Ok(Command::Unlink(load(a, b), load(c, d))),
        [3, a, b, ..] => Ok(Command::Withdraw(load(a, b))),
        [4, a, b, ..] => Ok(Command::Depart(load(a, b))),
        [5, a, b, ..] => Ok(Command::Partner(load(a, b))),
        [1..=5, ..] => Err(Fault::CutShort),
        _ => Err(Fault::Unknown),
    }
}
