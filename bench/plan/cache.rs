// The page cache: the frames, of which the clean and the dirty ones stand in a linked list each, and the disk.
use super::MAX;

#[derive(Clone, Copy, PartialEq)]
enum Place {
    Free,
    Clean,
    Dirty,
}

#[derive(Clone, Copy)]
pub struct Frame {
    place: Place,
    pub page: usize,
    pub value: u64,
    pub stamp: u64,
}

#[derive(Clone, Copy)]
struct Link {
    before: usize,
    after: usize,
}

pub struct Cache {
    frames: Vec<Frame>,
    // A link for each frame, and then those by which the clean and the dirty list begin and end.
    links: Vec<Link>,
    // How many frames were claimed once; the free ones are the others.
    claimed: usize,
    // For each page the frame that holds it, MAX where none does.
    holders: Vec<u64>,
    // The value and the stamp of each page.
    pub disk: Vec<(u64, u64)>,
    // The stamp of the last flush.
    pub flushed: u64,
}

impl Cache {
    pub fn new(frames: usize, pages: usize) -> Cache {
        Cache {
            frames: vec![Frame { place: Place::Free, page: 0, value: 0, stamp: 0 }; frames],
            links: (0..frames + 2).map(|own| Link { before: own, after: own }).collect(),
            claimed: 0,
            holders: vec![MAX; pages],
            disk: (0..pages as u64).map(|page| (page, 0)).collect(),
            flushed: 0,
        }
    }

    fn end_of(&self, place: Place) -> usize {
        self.frames.len() + usize::from(place == Place::Dirty)
    }

    // The first frame of the clean or the dirty list.
    fn first(&self, place: Place) -> Option<usize> {
        let end = self.end_of(place);
        let first = self.links[end].after;
        (first != end).then_some(first)
    }

    // Takes a frame out of its list, if it is in one.
    fn unlink(&mut self, frame: usize) {
        let Link { before, after } = self.links[frame];
        self.links[before].after = after;
        self.links[after].before = before;
    }

    // Makes a frame the last of the clean or the dirty list.
    fn put_last(&mut self, frame: usize, place: Place) {
        self.unlink(frame);
        let end = self.end_of(place);
        let last = self.links[end].before;
        self.links[frame] = Link { before: last, after: end };
        self.links[last].after = frame;
        self.links[end].before = frame;
        self.frames[frame].place = place;
    }

    pub fn find(&self, page: u64) -> u64 {
        self.holders.get(page as usize).map_or(MAX, |holder| *holder)
    }

    pub fn claim(&mut self, page: u64) -> u64 {
        let page = page as usize;
        match self.holders.get(page) {
            None => return MAX,
            Some(&MAX) => {}
            Some(holder) => return *holder,
        }
        let frame = if self.claimed < self.frames.len() {
            self.claimed += 1;
            self.claimed - 1
        } else if let Some(frame) = self.first(Place::Clean) {
            self.holders[self.frames[frame].page] = MAX;
            frame
        } else {
            return MAX;
        };
        self.frames[frame] = Frame { place: Place::Clean, page, value: 0, stamp: 0 };
        self.put_last(frame, Place::Clean);
        self.holders[page] = frame as u64;
        frame as u64
    }

    pub fn fill(&mut self, frame: u64, page: u64) -> u64 {
        let (Some(held), Some(stored)) = (self.frames.get_mut(frame as usize), self.disk.get(page as usize)) else {
            return MAX;
        };
        if held.place != Place::Clean || held.page as u64 != page {
            return 1;
        }
        (held.value, held.stamp) = *stored;
        0
    }

    pub fn read(&mut self, frame: u64) -> u64 {
        let Some(&held) = self.frames.get(frame as usize) else {
            return MAX;
        };
        match held.place {
            Place::Free => return MAX,
            Place::Clean => self.put_last(frame as usize, Place::Clean),
            Place::Dirty => {}
        }
        held.value
    }

    pub fn write(&mut self, frame: u64, value: u64, stamp: u64) -> u64 {
        let Some(held) = self.frames.get_mut(frame as usize) else {
            return MAX;
        };
        if held.place == Place::Free {
            return 1;
        }
        (held.value, held.stamp) = (value, stamp);
        if held.place == Place::Clean {
            self.put_last(frame as usize, Place::Dirty);
        }
        0
    }

    pub fn oldest(&self) -> u64 {
        self.first(Place::Dirty).map_or(MAX, |frame| frame as u64)
    }

    pub fn stamp(&self, frame: u64) -> u64 {
        match self.frames.get(frame as usize) {
            Some(held) if held.place != Place::Free => held.stamp,
            _ => MAX,
        }
    }

    pub fn flush(&mut self, frame: u64) -> u64 {
        let Some(&held) = self.frames.get(frame as usize) else {
            return MAX;
        };
        if held.place != Place::Dirty {
            return 1;
        }
        self.disk[held.page] = (held.value, held.stamp);
        self.flushed = held.stamp;
        self.put_last(frame as usize, Place::Clean);
        0
    }

    pub fn free(&self) -> impl Iterator<Item = u64> {
        self.claimed as u64..self.frames.len() as u64
    }

    pub fn clean(&self) -> impl Iterator<Item = (usize, &Frame)> {
        self.listed(Place::Clean)
    }

    pub fn dirty(&self) -> impl Iterator<Item = (usize, &Frame)> {
        self.listed(Place::Dirty)
    }

    // The frames of the clean or the dirty list, the first one first.
    fn listed(&self, place: Place) -> impl Iterator<Item = (usize, &Frame)> {
        let follow = |at: usize| Some(self.links[at].after).filter(|next| *next < self.frames.len());
        std::iter::successors(follow(self.end_of(place)), move |at| follow(*at)).map(|at| (at, &self.frames[at]))
    }
}
