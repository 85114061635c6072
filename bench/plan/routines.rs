// The kinds of threads.
use super::{Event, Verb, MAX};

#[derive(Clone, Copy)]
pub enum Operand {
    Number(u64),
    Register(usize),
}

#[derive(Clone)]
pub enum Line {
    Act { verb: Verb, args: [Operand; 3], into: Option<usize> },
    Plus { register: usize, by: Operand },
    Skip { over: usize, register: usize, equal: bool, with: Operand },
}

#[derive(Clone)]
pub enum Routine {
    Steps(Steps),
    CacheUser(CacheUser),
    Flusher(Flusher),
    LogWriter(LogWriter),
}

impl Routine {
    // The next event; None where the routine has ended.
    pub fn announce(&mut self) -> Option<Event> {
        match self {
            Routine::Steps(steps) => steps.announce(),
            Routine::CacheUser(user) => user.announce(),
            Routine::Flusher(flusher) => flusher.announce(),
            Routine::LogWriter(writer) => writer.announce(),
        }
    }

    // Takes the reply to that event.
    pub fn take(&mut self, reply: u64) {
        match self {
            Routine::Steps(steps) => steps.take(reply),
            Routine::CacheUser(user) => user.take(reply),
            Routine::Flusher(flusher) => flusher.take(reply),
            Routine::LogWriter(writer) => writer.take(reply),
        }
    }
}

#[derive(Clone)]
pub struct Steps {
    lines: Vec<Line>,
    times: u64,
    place: usize,
    registers: [u64; 4],
}

impl Steps {
    pub fn new(lines: Vec<Line>, times: u64) -> Steps {
        Steps { lines, times, place: 0, registers: [0; 4] }
    }

    fn value(&self, operand: Operand) -> u64 {
        match operand {
            Operand::Number(number) => number,
            Operand::Register(register) => self.registers[register],
        }
    }

    // Does the lines up to the next event's.
    fn announce(&mut self) -> Option<Event> {
        while self.times > 0 {
            match self.lines.get(self.place) {
                None => {
                    self.times -= 1;
                    self.place = 0;
                }
                Some(Line::Act { verb, args, .. }) => {
                    return Some(Event { verb: *verb, args: args.map(|operand| self.value(operand)) });
                }
                Some(Line::Plus { register, by }) => {
                    self.registers[*register] = self.registers[*register].wrapping_add(self.value(*by));
                    self.place += 1;
                }
                Some(Line::Skip { over, register, equal, with }) => {
                    let skips = (self.registers[*register] == self.value(*with)) == *equal;
                    self.place += if skips { over + 1 } else { 1 };
                }
            }
        }
        None
    }

    fn take(&mut self, reply: u64) {
        if let Line::Act { into: Some(register), .. } = self.lines[self.place] {
            self.registers[register] = reply;
        }
        self.place += 1;
    }
}

// Each of the other kinds keeps the verb that is next, None where it has ended.
#[derive(Clone)]
pub struct CacheUser {
    page: u64,
    expect: u64,
    lock: Option<u64>,
    next: Option<Verb>,
    frame: u64,
    value: u64,
}

impl CacheUser {
    pub fn new(page: u64, expect: u64, lock: Option<u64>) -> CacheUser {
        let first = if lock.is_some() { Verb::Acquire } else { Verb::Find };
        CacheUser { page, expect, lock, next: Some(first), frame: 0, value: 0 }
    }

    fn announce(&self) -> Option<Event> {
        let verb = self.next?;
        let args = match verb {
            Verb::Find | Verb::Claim => [self.page, 0, 0],
            Verb::Fill => [self.frame, self.page, 0],
            Verb::Read => [self.frame, 0, 0],
            Verb::Check => [self.value, self.expect, 0],
            _ => [self.lock?, 0, 0],
        };
        Some(Event { verb, args })
    }

    fn take(&mut self, reply: u64) {
        let release = self.lock.map(|_| Verb::Release);
        self.next = match self.next {
            Some(Verb::Acquire) => Some(Verb::Find),
            Some(Verb::Find) => {
                self.frame = reply;
                Some(if reply == MAX { Verb::Claim } else { Verb::Read })
            }
            Some(Verb::Claim) => {
                self.frame = reply;
                if reply == MAX { release } else { Some(Verb::Fill) }
            }
            Some(Verb::Fill) => Some(Verb::Read),
            Some(Verb::Read) => {
                self.value = reply;
                Some(Verb::Check)
            }
            Some(Verb::Check) => release,
            _ => None,
        };
    }
}

#[derive(Clone)]
pub struct Flusher {
    rounds: u64,
    mark_first: bool,
    next: Verb,
    frame: u64,
    stamp: u64,
}

impl Flusher {
    pub fn new(rounds: u64, mark_first: bool) -> Flusher {
        Flusher { rounds, mark_first, next: Verb::Oldest, frame: 0, stamp: 0 }
    }

    fn announce(&self) -> Option<Event> {
        let args = match self.next {
            Verb::Oldest => [0, 0, 0],
            Verb::Mark => [self.stamp, 0, 0],
            _ => [self.frame, 0, 0],
        };
        (self.rounds > 0).then_some(Event { verb: self.next, args })
    }

    fn take(&mut self, reply: u64) {
        self.next = match self.next {
            Verb::Oldest => {
                self.frame = reply;
                Verb::Stamp
            }
            Verb::Stamp => {
                self.stamp = reply;
                if self.mark_first { Verb::Mark } else { Verb::Flush }
            }
            Verb::Mark => Verb::Flush,
            _ => {
                self.rounds -= 1;
                Verb::Oldest
            }
        };
    }
}

#[derive(Clone)]
pub struct LogWriter {
    page: u64,
    value: u64,
    next: Option<Verb>,
    slot: u64,
    frame: u64,
}

impl LogWriter {
    pub fn new(page: u64, value: u64) -> LogWriter {
        LogWriter { page, value, next: Some(Verb::Reserve), slot: 0, frame: 0 }
    }

    fn announce(&self) -> Option<Event> {
        let verb = self.next?;
        let args = match verb {
            Verb::Reserve => [0, 0, 0],
            Verb::Put => [self.slot, self.value, 0],
            Verb::Claim => [self.page, 0, 0],
            _ => [self.frame, self.value, self.slot],
        };
        Some(Event { verb, args })
    }

    fn take(&mut self, reply: u64) {
        self.next = match self.next {
            Some(Verb::Reserve) => {
                self.slot = reply;
                Some(Verb::Put)
            }
            Some(Verb::Put) => Some(Verb::Claim),
            Some(Verb::Claim) => {
                self.frame = reply;
                Some(Verb::Write)
            }
            _ => None,
        };
    }
}
