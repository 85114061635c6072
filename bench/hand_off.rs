// The hand-off of a run on threads alone, as an ordinary Rust program: `hand_off WAY LINES REPORT`. Reads a report, and
// has as many threads as it names make its steps in its order. A step adds one to a number in each of so many cache
// lines that all threads share, and in as many of its thread's own; LINES may be 0. They hand on in one of these ways:
//
//     lock   one lock, and for each thread a condition variable at which it sleeps
//     word   one atomic word, which is the number of the next step; a thread peeks at it a thousand times, and sleeps
//     park   the same without a peek
//     timed  the same, with a timer that is set at each sleep
//
// Prints the nanoseconds a step, the start of the threads left out.
#[path = "plan/place.rs"]
mod place;

use place::{Place, Sleep};
use std::hint::spin_loop;
use std::sync::atomic::{AtomicU64, AtomicUsize, Ordering::Relaxed, Ordering::SeqCst};
use std::sync::{Barrier, Condvar, Mutex, OnceLock};
use std::thread;
use std::time::{Duration, Instant};

const PEEKS: u32 = 1000;

// A number in a cache line of its own.
#[repr(align(64))]
struct Line(AtomicU64);

fn lines_of(count: usize) -> Vec<Line> {
    (0..count).map(|_| Line(AtomicU64::new(0))).collect()
}

// Makes a step on these lines. Who makes it has the turn, so none is lost.
fn make_step(shared: &[Line], own: &[Line]) {
    for Line(number) in shared.iter().chain(own) {
        number.store(number.load(Relaxed) + 1, Relaxed);
    }
}

// Where the threads wait for each other before their first step. Who goes on first takes the time.
struct Begin {
    all: Barrier,
    start: OnceLock<Instant>,
}

impl Begin {
    fn wait(&self) {
        self.all.wait();
        self.start.get_or_init(Instant::now);
    }
}

// Starts a thread for each number below `threads`, and takes the time from when all have begun to when all have ended.
fn time<F: Fn(usize, &Begin) + Sync>(threads: usize, work: F) -> Duration {
    let begin = Begin { all: Barrier::new(threads), start: OnceLock::new() };
    thread::scope(|scope| {
        for me in 0..threads {
            let (begin, work) = (&begin, &work);
            scope.spawn(move || work(me, begin));
        }
    });
    begin.start.get().map_or(Duration::ZERO, Instant::elapsed)
}

fn by_lock(order: &[usize], threads: usize, lines: &[Line]) -> Duration {
    let places: Vec<Condvar> = (0..threads).map(|_| Condvar::new()).collect();
    let made = Mutex::new(0);
    time(threads, |me, begin| {
        let own = lines_of(lines.len());
        begin.wait();
        loop {
            let mut step = made.lock().unwrap();
            while *step < order.len() && order[*step] != me {
                step = places[me].wait(step).unwrap();
            }
            if *step == order.len() {
                return;
            }
            make_step(lines, &own);
            *step += 1;
            let next = order.get(*step).copied();
            drop(step);
            match next {
                Some(next) => places[next].notify_all(),
                None => places.iter().for_each(Condvar::notify_all),
            }
        }
    })
}

fn by_word(order: &[usize], threads: usize, lines: &[Line], peeks: u32, sleep: Sleep) -> Duration {
    let places: Vec<Place> = (0..threads).map(|_| Place::new(sleep)).collect();
    let word = AtomicUsize::new(0);
    let comes_soon = |me: usize| {
        for _ in 0..peeks {
            if order.get(word.load(SeqCst)).is_none_or(|next| *next == me) {
                return true;
            }
            spin_loop();
        }
        false
    };
    time(threads, |me, begin| {
        let own = lines_of(lines.len());
        begin.wait();
        loop {
            let step = word.load(SeqCst);
            if step == order.len() {
                return;
            }
            if order[step] != me {
                if !comes_soon(me) {
                    places[me].sleep();
                }
                continue;
            }
            make_step(lines, &own);
            word.store(step + 1, SeqCst);
            match order.get(step + 1) {
                Some(next) => places[*next].wake(),
                None => places.iter().for_each(Place::wake),
            }
        }
    })
}

fn main() {
    let words: Vec<String> = std::env::args().collect();
    let report = std::fs::read_to_string(&words[3]).unwrap();
    let order: Vec<usize> = report
        .lines()
        .filter_map(|line| line.strip_prefix("step "))
        .map(|line| line.split(' ').nth(1).unwrap().parse().unwrap())
        .collect();
    let threads = order.iter().max().map_or(0, |most| most + 1);
    let lines = lines_of(words[2].parse().unwrap());
    let time = match words[1].as_str() {
        "lock" => by_lock(&order, threads, &lines),
        "word" => by_word(&order, threads, &lines, PEEKS, Sleep::Plain),
        "timed" => by_word(&order, threads, &lines, 0, Sleep::Timed),
        _ => by_word(&order, threads, &lines, 0, Sleep::Plain),
    };
    assert!(lines.iter().all(|Line(number)| number.load(Relaxed) == order.len() as u64));
    println!("{}", time.as_nanos() / order.len().max(1) as u128);
}
