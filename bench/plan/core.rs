// The state of a run: it decides each step, and makes it.
use super::*;

fn has(select: &[Pickable], event: &Event) -> bool {
    let class = event.class();
    select.iter().any(|item| match item {
        Pickable::Every => true,
        Pickable::Class(picked) => *picked == class,
        Pickable::Object(picked, object) => *picked == class && event.args[0] == *object,
    })
}

// The thread at a place of the bag in which each thread stands as often as its weight says.
fn pick(weights: &[u64; THREADS], mut place: u64) -> usize {
    let mut thread = 0;
    while place >= weights[thread] {
        place -= weights[thread];
        thread += 1;
    }
    thread
}

// The member of a set, from the least on, that an other draw names.
fn pick_of_set(mut set: u32, draws: &mut impl Draws) -> usize {
    for _ in 0..draws.other(u64::from(set.count_ones())) {
        set &= set - 1;
    }
    set.trailing_zeros() as usize
}

// The threads under `pct`, the one of highest priority first, and the steps at which one falls.
struct Ranks {
    ranked: Vec<usize>,
    priority: [u64; THREADS],
    // Each change point with the priority that it gives, the last one first.
    changes: Vec<(u64, u64)>,
}

impl Ranks {
    fn draw(threads: usize, depth: u64, sum: u64, draws: &mut impl Draws) -> Result<Ranks, Verdict> {
        let mut rest: Vec<usize> = (0..threads).collect();
        let mut ranked = Vec::with_capacity(threads);
        let mut priority = [0; THREADS];
        for place in 0..threads {
            let draw = draws.selected(rest.len() as u64)?;
            let thread = rest.remove(draw as usize);
            priority[thread] = depth - 1 + (threads - place) as u64;
            ranked.push(thread);
        }
        let mut changes = Vec::new();
        if sum > 0 {
            for low in 1..depth {
                changes.push((draws.selected(sum)?, low));
            }
        }
        changes.sort_by(|a, b| b.cmp(a));
        Ok(Ranks { ranked, priority, changes })
    }

    // Makes the changes of this step, and tells the able thread of highest priority.
    fn grant(&mut self, step: u64, able: u32) -> usize {
        while let Some(&(_, low)) = self.changes.last().filter(|(point, _)| *point == step) {
            self.changes.pop();
            let from = self.highest(able);
            let thread = self.ranked.remove(from);
            self.priority[thread] = low;
            let below = self.ranked.iter().position(|other| self.priority[*other] < low);
            self.ranked.insert(below.unwrap_or(self.ranked.len()), thread);
        }
        self.ranked[self.highest(able)]
    }

    fn highest(&self, able: u32) -> usize {
        self.ranked.iter().position(|thread| able >> thread & 1 == 1).unwrap()
    }
}

fn members(mut set: u32) -> impl Iterator<Item = usize> {
    std::iter::from_fn(move || {
        if set == 0 {
            return None;
        }
        let member = set.trailing_zeros() as usize;
        set &= set - 1;
        Some(member)
    })
}

// Whether a thread has ended with a number left, or announces a selected event with none left.
fn is_wrong<const STRATEGY: u8>(word: &Option<Event>, chosen: bool, left: u64) -> bool {
    match word {
        _ if STRATEGY != URW && STRATEGY != SURW => false,
        None => left > 0,
        Some(_) => chosen && left == 0,
    }
}


pub struct Core<'a, const STRATEGY: u8, D: Draws> {
    scenario: &'a Scenario,
    counts: &'a [u64],
    followed: &'a [Asked],
    draws: &'a mut D,
    journal: Vec<Entry>,
    announced: Vec<Option<Event>>,
    cells: Vec<u64>,
    holders: Vec<Option<usize>>,
    cache: Cache,
    log: Log,
    checks: u64,
    failed: Vec<Option<usize>>,
    // The sets of threads: those that announce, those that are able, and for each lock those that want it.
    announcing: u32,
    able: u32,
    wanting: [u32; 8],
    // Those whose announced event is selected. Under `urw` all are, and the set isn't kept.
    choosing: u32,
    // Each thread's number left; under `urw` the weights are the same for able threads and 0 for the others. The sum is
    // that of the numbers that a draw is below.
    left: [u64; THREADS],
    weights: [u64; THREADS],
    sum: u64,
    wrong: Option<usize>,
    // Under `surw` the intended thread, as a set of at most one.
    intended: u32,
    ranks: Option<Ranks>,
    forced: bool,
}

impl<'a, const STRATEGY: u8, D: Draws> Core<'a, STRATEGY, D> {
    // The state before the first step, with the first word of each thread.
    pub fn new(
        scenario: &'a Scenario,
        counts: &'a [u64],
        followed: &'a [Asked],
        draws: &'a mut D,
        announced: Vec<Option<Event>>,
    ) -> Self {
        let mut core = Core {
            scenario,
            counts,
            followed,
            draws,
            journal: Vec::with_capacity(scenario.max_steps as usize),
            announced: vec![None; announced.len()],
            cells: vec![0; scenario.cells],
            holders: vec![None; scenario.locks],
            cache: Cache::new(scenario.frames, scenario.pages),
            log: Log::new(scenario.slots),
            checks: 0,
            failed: vec![None; scenario.monitors.len()],
            announcing: 0,
            able: 0,
            wanting: [0; 8],
            choosing: 0,
            left: [0; THREADS],
            weights: [0; THREADS],
            sum: 0,
            wrong: None,
            intended: 0,
            ranks: None,
            forced: false,
        };
        core.left[..counts.len()].copy_from_slice(counts);
        if STRATEGY == SURW {
            core.sum = counts.iter().sum();
        }
        // Of the wrong counts the one of the least thread is found.
        for (thread, word) in announced.into_iter().enumerate().rev() {
            core.say(thread, word);
        }
        core
    }

    // The thread of the next step, or why the run stops.
    #[inline]
    pub fn decide(&mut self) -> Result<usize, Verdict> {
        let step = self.journal.len();
        if STRATEGY == FOLLOW {
            if let Some(asked) = self.followed.get(step) {
                let word = self.announced.get(usize::from(asked.thread)).copied().flatten();
                if word != Some(asked.event) || self.able >> asked.thread & 1 == 0 {
                    return Err(Verdict::Asked { asked: *asked, announced: word });
                }
            }
        }
        if let Some(thread) = self.wrong {
            let counted = self.counts[thread];
            return Err(Verdict::WrongCount { thread, counted, seen: counted - self.left[thread] });
        }
        if self.announcing == 0 {
            return Err(Verdict::Ended);
        }
        if step as u64 >= self.scenario.max_steps {
            return Err(Verdict::StepLimit);
        }
        if self.able == 0 {
            return Err(Verdict::Deadlock);
        }
        if STRATEGY == FOLLOW && step >= self.followed.len() {
            return Err(Verdict::Left { thread: self.announcing.trailing_zeros() as usize });
        }
        self.forced = false;
        Ok(match STRATEGY {
            URW => pick(&self.weights, self.draws.selected(self.sum)?),
            SURW => {
                if self.intended == 0 && self.sum > 0 {
                    self.intended = 1 << pick(&self.left, self.draws.selected(self.sum)?);
                }
                let candidates = self.able & (!self.choosing | self.intended);
                self.forced = candidates == 0;
                pick_of_set(if self.forced { self.able } else { candidates }, self.draws)
            }
            PCT => {
                if step == 0 {
                    let sum = self.counts.iter().sum();
                    self.ranks = Some(Ranks::draw(self.announced.len(), self.scenario.depth, sum, self.draws)?);
                }
                self.ranks.as_mut().unwrap().grant(step as u64, self.able)
            }
            FOLLOW => usize::from(self.followed[step].thread),
            _ => pick_of_set(self.able, self.draws),
        })
    }

    // Makes the step of a thread, and tells the reply to its event.
    #[inline]
    pub fn perform(&mut self, thread: usize) -> u64 {
        let bit = 1u32 << thread;
        let event = self.announced[thread].unwrap();
        let reply = self.apply(thread, bit, &event);
        let chosen = STRATEGY == URW || self.choosing & bit != 0;
        self.journal.push(Entry { thread: thread as u8, chosen, forced: self.forced, event, reply });
        for (monitor, failed) in self.scenario.monitors.iter().zip(&mut self.failed) {
            let fails = match monitor {
                // The mark never falls, so until this has failed only the stamp of the last flush can be above it.
                Monitor::WriteAhead => self.cache.flushed > self.log.mark,
                Monitor::LogWhole => self.log.whole < self.log.mark,
                Monitor::Expect => self.checks > 0,
                Monitor::CellEnd { .. } => false,
            };
            if fails && failed.is_none() {
                *failed = Some(self.journal.len());
            }
        }
        if STRATEGY == URW {
            self.left[thread] -= 1;
            self.sum -= self.weights[thread];
            self.weights[thread] = 0;
        }
        if STRATEGY == SURW && chosen {
            self.left[thread] -= 1;
            self.sum -= 1;
            if !self.forced {
                self.intended = 0;
            }
        }
        self.able &= !bit;
        self.choosing &= !bit;
        self.announcing &= !bit;
        reply
    }

    // What an event does to the world, and its reply.
    #[inline]
    fn apply(&mut self, thread: usize, bit: u32, event: &Event) -> u64 {
        let [a, b, c] = event.args;
        let cell = self.cells.get_mut(a as usize);
        match event.verb {
            Verb::Acquire => match self.holders.get_mut(a as usize) {
                None => MAX,
                Some(holder) => {
                    *holder = Some(thread);
                    let lock = a as usize;
                    self.wanting[lock] &= !bit;
                    self.able &= !self.wanting[lock];
                    if STRATEGY == URW {
                        for waiting in members(self.wanting[lock]) {
                            self.sum -= self.weights[waiting];
                            self.weights[waiting] = 0;
                        }
                    }
                    0
                }
            },
            Verb::Release => match self.holders.get_mut(a as usize) {
                None => MAX,
                Some(holder) if *holder == Some(thread) => {
                    *holder = None;
                    let lock = a as usize;
                    self.able |= self.wanting[lock];
                    if STRATEGY == URW {
                        for waiting in members(self.wanting[lock]) {
                            self.weights[waiting] = self.left[waiting];
                            self.sum += self.left[waiting];
                        }
                    }
                    0
                }
                Some(_) => 1,
            },
            Verb::Load => cell.map_or(MAX, |cell| *cell),
            Verb::Store => cell.map_or(MAX, |cell| {
                *cell = b;
                0
            }),
            Verb::Add => cell.map_or(MAX, |cell| {
                let before = *cell;
                *cell = before.wrapping_add(b);
                before
            }),
            Verb::SwapIf => cell.map_or(MAX, |cell| {
                let before = *cell;
                if before == b {
                    *cell = c;
                }
                before
            }),
            Verb::Find => self.cache.find(a),
            Verb::Claim => self.cache.claim(a),
            Verb::Fill => self.cache.fill(a, b),
            Verb::Read => self.cache.read(a),
            Verb::Write => self.cache.write(a, b, c),
            Verb::Oldest => self.cache.oldest(),
            Verb::Stamp => self.cache.stamp(a),
            Verb::Flush => self.cache.flush(a),
            Verb::Reserve => self.log.reserve(),
            Verb::Put => self.log.put(a, b),
            Verb::Mark => self.log.mark(a),
            Verb::Durable => self.log.mark,
            Verb::Check => {
                if a == b {
                    0
                } else {
                    self.checks = self.checks.saturating_add(1);
                    1
                }
            }
        }
    }

    // Takes a thread's next word: the event that it announces, or that it has ended.
    #[inline]
    pub fn say(&mut self, thread: usize, word: Option<Event>) {
        let bit = 1u32 << thread;
        if let Some(event) = &word {
            self.announcing |= bit;
            let mut free = true;
            if let Some(lock) = event.wants(self.holders.len()) {
                self.wanting[lock] |= bit;
                free = self.holders[lock].is_none();
            }
            if free {
                self.able |= bit;
                if STRATEGY == URW {
                    self.weights[thread] = self.left[thread];
                    self.sum += self.left[thread];
                }
            }
            if STRATEGY != URW && has(&self.scenario.select, event) {
                self.choosing |= bit;
            }
        }
        let chosen = STRATEGY == URW || self.choosing & bit != 0;
        if is_wrong::<STRATEGY>(&word, chosen, self.left[thread]) {
            self.wrong = Some(thread);
        }
        self.announced[thread] = word;
    }

    // The run, which stopped for this reason.
    pub fn finish(self, verdict: Verdict) -> Run {
        let Core { journal, announced, cells, holders, cache, log, checks, mut failed, .. } = self;
        if let Verdict::Ended = verdict {
            for (monitor, failed) in self.scenario.monitors.iter().zip(&mut failed) {
                if let Monitor::CellEnd { cell, value } = monitor {
                    if cells[*cell] != *value {
                        *failed = Some(journal.len());
                    }
                }
            }
        }
        Run { verdict, journal, announced, cells, holders, cache, log, checks, failed, bent: self.draws.bent() }
    }
}
