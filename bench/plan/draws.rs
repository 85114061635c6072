// Where draws come from: the tapes of the file, or streams of its seed.
use super::seeded::Seeded;
use super::*;

pub trait Draws {
    // The next selected draw below a bound, or why it is refused.
    fn selected(&mut self, below: u64) -> Result<u64, Verdict>;

    // The next other draw below a bound.
    fn other(&mut self, below: u64) -> u64;

    // How many draws were bent.
    fn bent(&self) -> u64;
}

// A strict tape and a loose one.
pub struct Tapes<'a> {
    selected: &'a [u64],
    other: std::slice::Iter<'a, u64>,
    taken: usize,
}

impl<'a> Tapes<'a> {
    pub fn new(selected: &'a [u64], other: &'a [u64]) -> Tapes<'a> {
        Tapes { selected, other: other.iter(), taken: 0 }
    }
}

impl Draws for Tapes<'_> {
    fn selected(&mut self, below: u64) -> Result<u64, Verdict> {
        let place = self.taken;
        match self.selected.get(place) {
            None => Err(Verdict::Short { place }),
            Some(&kept) if kept >= below => Err(Verdict::Large { place, kept, below }),
            Some(&draw) => {
                self.taken += 1;
                Ok(draw)
            }
        }
    }

    fn other(&mut self, below: u64) -> u64 {
        self.other.next().map_or(0, |entry| entry % below)
    }

    fn bent(&self) -> u64 {
        0
    }
}

// A stream for the selected draws and one for the others.
pub struct Streams {
    selected: Seeded,
    other: Seeded,
}

impl Streams {
    pub fn of_run(seed: u64, strategy: u8) -> Streams {
        Streams { selected: Seeded::new(seed, if strategy == PCT { 3 } else { 1 }), other: Seeded::new(seed, 2) }
    }

    // A plain run asks for no selected draw.
    pub fn of_profile(seed: u64) -> Streams {
        Streams { selected: Seeded::new(seed, 1), other: Seeded::new(seed, 4) }
    }
}

impl Draws for Streams {
    fn selected(&mut self, below: u64) -> Result<u64, Verdict> {
        Ok(self.selected.below(below))
    }

    fn other(&mut self, below: u64) -> u64 {
        self.other.below(below)
    }

    fn bent(&self) -> u64 {
        self.selected.bent() + self.other.bent()
    }
}
