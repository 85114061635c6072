// Makes the run of a scenario with a thread for each routine, which have the core in turn.
use super::*;
use std::cell::UnsafeCell;
use std::hint::spin_loop;
use std::sync::atomic::{AtomicUsize, Ordering::SeqCst};
use std::sync::Mutex;
use std::thread::{self, available_parallelism};

// How often a thread peeks at the turn before it sleeps, where there is a processor for each.
const PEEKS: u32 = 1000;

// What the turn is once the run has stopped.
const OVER: usize = usize::MAX;

// The core, and the thread whose turn it is, which alone touches it.
struct Turns<'a, const STRATEGY: u8, D: Draws> {
    core: UnsafeCell<Core<'a, STRATEGY, D>>,
    turn: AtomicUsize,
    places: Vec<Place>,
    peeks: u32,
    verdict: Mutex<Option<Verdict>>,
}

unsafe impl<const STRATEGY: u8, D: Draws + Send> Sync for Turns<'_, STRATEGY, D> {}

impl<'a, const STRATEGY: u8, D: Draws + Send> Turns<'a, STRATEGY, D> {
    // The turns of a core, the first one not yet given.
    fn new(core: Core<'a, STRATEGY, D>, threads: usize, sleep: Sleep) -> Self {
        let processors = available_parallelism().map_or(threads, |count| count.get());
        Turns {
            core: UnsafeCell::new(core),
            turn: AtomicUsize::new(threads),
            places: (0..threads).map(|_| Place::new(sleep)).collect(),
            peeks: if processors >= threads { PEEKS } else { 0 },
            verdict: Mutex::new(None),
        }
    }

    // Decides what is next, and gives the turn.
    fn give(&self, core: &mut Core<'a, STRATEGY, D>) {
        match core.decide() {
            Ok(thread) => {
                self.turn.store(thread, SeqCst);
                self.places[thread].wake();
            }
            Err(verdict) => {
                *self.verdict.lock().unwrap() = Some(verdict);
                self.turn.store(OVER, SeqCst);
                self.places.iter().for_each(Place::wake);
            }
        }
    }

    fn comes_soon(&self, me: usize) -> bool {
        (0..self.peeks).any(|_| {
            spin_loop();
            let turn = self.turn.load(SeqCst);
            turn == me || turn == OVER
        })
    }

    // Makes the steps of a thread.
    fn work(&self, me: usize, mut routine: Routine) {
        loop {
            match self.turn.load(SeqCst) {
                OVER => return,
                turn if turn == me => {
                    let core = unsafe { &mut *self.core.get() };
                    let reply = core.perform(me);
                    routine.take(reply);
                    core.say(me, routine.announce());
                    self.give(core);
                }
                _ if self.comes_soon(me) => {}
                _ => self.places[me].sleep(),
            }
        }
    }
}

pub fn run_on_threads<const STRATEGY: u8>(
    scenario: &Scenario,
    counts: &[u64],
    draws: &mut (impl Draws + Send),
    sleep: Sleep,
) -> Run {
    let mut routines = scenario.routines.clone();
    let announced = routines.iter_mut().map(Routine::announce).collect();
    let core = Core::<STRATEGY, _>::new(scenario, counts, &[], draws, announced);
    let mut turns = Turns::new(core, routines.len(), sleep);
    turns.give(unsafe { &mut *turns.core.get() });
    thread::scope(|scope| {
        let turns = &turns;
        for (me, routine) in routines.into_iter().enumerate() {
            scope.spawn(move || turns.work(me, routine));
        }
    });
    let verdict = turns.verdict.get_mut().unwrap().take().unwrap();
    turns.core.into_inner().finish(verdict)
}
