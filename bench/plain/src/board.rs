//! The board: the links of 256 loads and the matching that is kept on them, the lower number first in every ranking.

use crate::load_set::LoadSet;

pub const LOADS: usize = 256;
pub const MOST_LINKS: usize = 2048;

/// The least whole number whose square is at least twice `MOST_LINKS`. A free load with more links displaces another.
const THRESHOLD: u8 = 64;

#[derive(Clone, Copy, PartialEq, Eq, Debug)]
pub enum Refusal {
    NoSuchLoad,
    SameLoad,
    AlreadyLinked,
    NotLinked,
    BookFull,
    NoPartner,
}

pub struct Board {
    links: [LoadSet; LOADS],
    degree: [u8; LOADS],
    link_count: usize,
    partner: [Option<u8>; LOADS],
    free: LoadSet,
}

impl Board {
    pub fn new() -> Board {
        Board {
            links: [LoadSet::NONE; LOADS],
            degree: [0; LOADS],
            link_count: 0,
            partner: [None; LOADS],
            free: LoadSet::ALL,
        }
    }

    pub fn link(&mut self, a: u16, b: u16) -> Result<(), Refusal> {
        let (a, b) = two_loads(a, b)?;
        if self.are_linked(a, b) {
            return Err(Refusal::AlreadyLinked);
        }
        if self.link_count == MOST_LINKS {
            return Err(Refusal::BookFull);
        }
        self.add_half(a, b);
        self.add_half(b, a);
        self.link_count += 1;
        self.repair(&[a.min(b), a.max(b)]);
        Ok(())
    }

    pub fn unlink(&mut self, a: u16, b: u16) -> Result<(), Refusal> {
        let (a, b) = two_loads(a, b)?;
        if !self.are_linked(a, b) {
            return Err(Refusal::NotLinked);
        }
        self.remove_half(a, b);
        self.remove_half(b, a);
        self.link_count -= 1;
        if self.partner_of(a) == Some(b) {
            self.part(a, b);
        }
        self.repair(&[a.min(b), a.max(b)]);
        Ok(())
    }

    pub fn withdraw(&mut self, a: u16) -> Result<(), Refusal> {
        let a = load(a)?;
        self.remove_links(a);
        if let Some(b) = self.partner_of(a) {
            self.part(a, b);
            self.repair(&[b]);
        }
        Ok(())
    }

    /// The load departs with its partner, which is answered.
    pub fn depart(&mut self, a: u16) -> Result<u8, Refusal> {
        let a = load(a)?;
        let b = self.partner_of(a).ok_or(Refusal::NoPartner)?;
        self.remove_links(a);
        self.remove_links(b);
        self.part(a, b);
        Ok(b)
    }

    pub fn partner(&self, a: u16) -> Result<Option<u8>, Refusal> {
        Ok(self.partner_of(load(a)?))
    }

    /// Each load's partner.
    pub fn partners(&self) -> &[Option<u8>; LOADS] {
        &self.partner
    }

    /// The pairs, lower load first, in rising order.
    pub fn pairs(&self) -> impl Iterator<Item = (u8, u8)> {
        (0..=u8::MAX).filter_map(|a| Some((a, self.partner_of(a).filter(|&b| a < b)?)))
    }

    pub fn link_count(&self) -> usize {
        self.link_count
    }

    pub fn linked_loads(&self, a: u8) -> LoadSet {
        self.links[usize::from(a)]
    }

    fn degree_of(&self, a: u8) -> u8 {
        self.degree[usize::from(a)]
    }

    fn partner_of(&self, a: u8) -> Option<u8> {
        self.partner[usize::from(a)]
    }

    fn are_linked(&self, a: u8, b: u8) -> bool {
        self.linked_loads(a).has(b)
    }

    fn free_links(&self, a: u8) -> LoadSet {
        self.linked_loads(a) & self.free
    }

    /// Load a gets its half of the link to b.
    fn add_half(&mut self, a: u8, b: u8) {
        self.links[usize::from(a)].insert(b);
        self.degree[usize::from(a)] += 1;
    }

    /// Load a loses its half of the link to b.
    fn remove_half(&mut self, a: u8, b: u8) {
        self.links[usize::from(a)].remove(b);
        self.degree[usize::from(a)] -= 1;
    }

    fn remove_links(&mut self, a: u8) {
        for b in self.linked_loads(a).loads() {
            self.remove_half(b, a);
        }
        self.link_count -= usize::from(self.degree_of(a));
        self.links[usize::from(a)] = LoadSet::NONE;
        self.degree[usize::from(a)] = 0;
    }

    fn pair(&mut self, a: u8, b: u8) {
        self.partner[usize::from(a)] = Some(b);
        self.partner[usize::from(b)] = Some(a);
        self.free.remove(a);
        self.free.remove(b);
    }

    fn part(&mut self, a: u8, b: u8) {
        self.partner[usize::from(a)] = None;
        self.partner[usize::from(b)] = None;
        self.free.insert(a);
        self.free.insert(b);
    }

    /// First each of the loads is matched with a free one, then each that is still free is improved.
    fn repair(&mut self, loads: &[u8]) {
        for &a in loads {
            self.match_free(a);
        }
        for &a in loads {
            self.improve(a);
        }
    }

    fn match_free(&mut self, a: u8) {
        if self.free.has(a)
            && let Some(b) = self.free_links(a).first()
        {
            self.pair(a, b);
        }
    }

    fn improve(&mut self, a: u8) {
        if self.free.has(a) && !self.augment(a) && self.degree_of(a) > THRESHOLD {
            self.displace(a);
        }
    }

    /// Takes the first augmenting path of three links that begins at a, which is free. Answers whether there is one.
    fn augment(&mut self, a: u8) -> bool {
        let Some((x, y, z)) = self.find_path(a) else {
            return false;
        };
        self.take(a, x, y);
        self.pair(y, z);
        true
    }

    /// The loads x, y, z of the first augmenting path a, x, y, z.
    fn find_path(&self, a: u8) -> Option<(u8, u8, u8)> {
        self.matched_links(a).find_map(|(x, y)| {
            let z = self.free_links(y).without(a).first()?;
            Some((x, y, z))
        })
    }

    /// The free load a takes the first linked load whose partner has few links, and that partner is augmented.
    fn displace(&mut self, a: u8) {
        let light = self
            .matched_links(a)
            .find(|&(_, y)| self.degree_of(y) <= THRESHOLD);
        if let Some((x, y)) = light {
            self.take(a, x, y);
            self.augment(y);
        }
    }

    /// Each load that is linked to a and has a partner, with its partner.
    fn matched_links(&self, a: u8) -> impl Iterator<Item = (u8, u8)> {
        self.linked_loads(a)
            .loads()
            .filter_map(|x| Some((x, self.partner_of(x)?)))
    }

    /// The free load a takes x from its partner y.
    fn take(&mut self, a: u8, x: u8, y: u8) {
        self.part(x, y);
        self.pair(a, x);
    }
}

fn load(number: u16) -> Result<u8, Refusal> {
    u8::try_from(number).map_err(|_| Refusal::NoSuchLoad)
}

fn two_loads(a: u16, b: u16) -> Result<(u8, u8), Refusal> {
    let (a, b) = (load(a)?, load(b)?);
    if a == b {
        return Err(Refusal::SameLoad);
    }
    Ok((a, b))
}
