// The jobs `plan`, `run`, `check` and `replay` as an ordinary, fast Rust program, to compare with; a replay is made on
// one thread. It takes scenarios of threads of all kinds but `adder`, with counts that are given or by profile, and with
// tapes or a seed. A file that is past this ends with status 3 and no fault line.
#[path = "plan/cache.rs"]
mod cache;
#[path = "plan/core.rs"]
mod core;
#[path = "plan/draws.rs"]
mod draws;
#[path = "plan/log.rs"]
mod log;
#[path = "plan/place.rs"]
mod place;
#[path = "plan/reading.rs"]
mod reading;
#[path = "plan/report.rs"]
mod report;
#[path = "plan/routines.rs"]
mod routines;
#[path = "plan/run.rs"]
mod run;
#[path = "plan/saved.rs"]
mod saved;
#[path = "plan/seeded.rs"]
mod seeded;
#[path = "plan/sha256.rs"]
mod sha256;
#[path = "plan/threads.rs"]
mod threads;

use self::core::Core;
use cache::Cache;
use draws::{Draws, Streams, Tapes};
use log::Log;
use place::{Place, Sleep};
use reading::read;
use report::{push_steps, push_summary, report};
use routines::Routine;
use run::{profile, run};
use saved::{hex, read_saved, write, Asked};
use sha256::sha256;
use std::io::Write;
use std::process::exit;
use threads::run_on_threads;

const THREADS: usize = 16;
const STEPS: u64 = 65_536;
const FILE_LIMIT: usize = 1_048_576;
const SAVED_LIMIT: usize = 8_388_608;
const MAX: u64 = u64::MAX;

// The greatest number of a file.
const MOST: u64 = i64::MAX as u64;

// The strategies. `run` is compiled once for each.
const URW: u8 = 0;
const SURW: u8 = 1;
const PCT: u8 = 2;
const PLAIN: u8 = 3;
// A replay.
const FOLLOW: u8 = 4;

#[derive(Clone, Copy, PartialEq)]
enum Class {
    Lock,
    Cell,
    Cache,
    Disk,
    Log,
    Check,
}

// Each class with its text.
const CLASSES: [(Class, &str); 6] = [
    (Class::Lock, "lock"),
    (Class::Cell, "cell"),
    (Class::Cache, "cache"),
    (Class::Disk, "disk"),
    (Class::Log, "log"),
    (Class::Check, "check"),
];

#[derive(Clone, Copy, PartialEq)]
enum Verb {
    Acquire,
    Release,
    Load,
    Store,
    Add,
    SwapIf,
    Find,
    Claim,
    Fill,
    Read,
    Write,
    Oldest,
    Stamp,
    Flush,
    Reserve,
    Put,
    Mark,
    Durable,
    Check,
}

// Each verb with its text, how many numbers follow it, and its class.
const VERBS: [(Verb, &str, usize, Class); 19] = [
    (Verb::Acquire, "acquire", 1, Class::Lock),
    (Verb::Release, "release", 1, Class::Lock),
    (Verb::Load, "load", 1, Class::Cell),
    (Verb::Store, "store", 2, Class::Cell),
    (Verb::Add, "add", 2, Class::Cell),
    (Verb::SwapIf, "swap_if", 3, Class::Cell),
    (Verb::Find, "find", 1, Class::Cache),
    (Verb::Claim, "claim", 1, Class::Cache),
    (Verb::Fill, "fill", 2, Class::Disk),
    (Verb::Read, "read", 1, Class::Cache),
    (Verb::Write, "write", 3, Class::Cache),
    (Verb::Oldest, "oldest", 0, Class::Cache),
    (Verb::Stamp, "stamp", 1, Class::Cache),
    (Verb::Flush, "flush", 1, Class::Disk),
    (Verb::Reserve, "reserve", 0, Class::Log),
    (Verb::Put, "put", 2, Class::Log),
    (Verb::Mark, "mark", 1, Class::Log),
    (Verb::Durable, "durable", 0, Class::Log),
    (Verb::Check, "check", 2, Class::Check),
];

#[derive(Clone, Copy, PartialEq)]
struct Event {
    verb: Verb,
    args: [u64; 3],
}

impl Event {
    fn class(&self) -> Class {
        VERBS[self.verb as usize].3
    }

    // The lock that must be free for this event.
    fn wants(&self, locks: usize) -> Option<usize> {
        match self.verb {
            Verb::Acquire if self.args[0] < locks as u64 => Some(self.args[0] as usize),
            _ => None,
        }
    }
}

enum Pickable {
    Every,
    Class(Class),
    Object(Class, u64),
}

#[derive(Clone, Copy)]
enum Monitor {
    WriteAhead,
    LogWhole,
    Expect,
    CellEnd { cell: usize, value: u64 },
}

struct Scenario {
    max_steps: u64,
    strategy: u8,
    seed: u64,
    depth: u64,
    select: Vec<Pickable>,
    // None: by profile.
    counts: Option<Vec<u64>>,
    monitors: Vec<Monitor>,
    cells: usize,
    locks: usize,
    frames: usize,
    pages: usize,
    slots: usize,
    // The selected and the other tape. None: by the seed.
    tapes: Option<(Vec<u64>, Vec<u64>)>,
    routines: Vec<Routine>,
}

struct Entry {
    thread: u8,
    chosen: bool,
    forced: bool,
    event: Event,
    reply: u64,
}

enum Verdict {
    Ended,
    Deadlock,
    WrongCount { thread: usize, counted: u64, seen: u64 },
    Short { place: usize },
    Large { place: usize, kept: u64, below: u64 },
    StepLimit,
    Asked { asked: Asked, announced: Option<Event> },
    Left { thread: usize },
}

struct Run {
    verdict: Verdict,
    journal: Vec<Entry>,
    announced: Vec<Option<Event>>,
    cells: Vec<u64>,
    holders: Vec<Option<usize>>,
    cache: Cache,
    log: Log,
    checks: u64,
    failed: Vec<Option<usize>>,
    bent: u64,
}

fn main() {
    let words: Vec<String> = std::env::args().collect();
    let words: Vec<&str> = words[1..].iter().map(String::as_str).collect();
    match words[..] {
        ["run", file] => plan(file, None, Some(Sleep::Plain)),
        ["run", file, "timed"] => plan(file, None, Some(Sleep::Timed)),
        ["plan", file] => plan(file, None, None),
        ["plan", file, "--save", path] => plan(file, Some(path), None),
        ["check", saved] => check(saved),
        ["make", number] => make(number),
        ["replay", file, saved] => replay(file, saved),
        _ => exit(2),
    }
}

fn print(text: &[u8]) {
    std::io::stdout().write_all(text).unwrap();
}

// The bytes of a file, or the end with status 12.
fn bytes_of(file: &str, limit: usize) -> Vec<u8> {
    let bytes = std::fs::read(file).unwrap();
    if bytes.len() > limit {
        println!("fault too_long {limit}");
        exit(12);
    }
    bytes
}

fn scenario_of(bytes: &[u8]) -> Scenario {
    std::str::from_utf8(bytes).ok().and_then(read).unwrap_or_else(|| exit(3))
}

fn saved_of(file: &str) -> saved::Saved {
    read_saved(&bytes_of(file, SAVED_LIMIT)).unwrap_or_else(|fault| {
        print(fault.text().as_bytes());
        exit(6)
    })
}

// Makes the run of a file, on threads where it is said how they sleep.
fn plan(file: &str, save: Option<&str>, on_threads: Option<Sleep>) {
    let bytes = bytes_of(file, FILE_LIMIT);
    let scenario = scenario_of(&bytes);
    let counts = match &scenario.counts {
        _ if scenario.strategy == PLAIN => vec![0; scenario.routines.len()],
        Some(counts) => counts.clone(),
        None => profile(&scenario).unwrap_or_else(|fault| {
            println!("fault profile {fault}");
            exit(3)
        }),
    };
    let run = match &scenario.tapes {
        Some((selected, other)) => run_of(&scenario, &counts, &mut Tapes::new(selected, other), on_threads),
        None => run_of(&scenario, &counts, &mut Streams::of_run(scenario.seed, scenario.strategy), on_threads),
    };
    if let Some(path) = save {
        std::fs::write(path, write(&sha256(&bytes), &run.journal)).unwrap();
    }
    tell(&run, &scenario);
}

// The run of the scenario that a number makes, without its steps but with their digest.
fn make(number: &str) {
    let number: u64 = number.parse().unwrap_or_else(|_| exit(2));
    let mut text = String::from("strategy = \"surw\"\nselect = [\"cell 0\"]\nmax_steps = 65536\n[world]\ncells = 8\n");
    for thread in 0..16 {
        let (a, b) = ((number % 8 + thread) % 8, (number % 8 + 3 * thread) % 8);
        text += &format!("[[thread]]\nkind = \"steps\"\ntimes = 1250\nlines = [\"load {a} -> r0\", \"plus r0 1\", \"store {a} r0\", \"add {b} 1\"]\n");
    }
    let scenario = Scenario { seed: number, ..scenario_of(text.as_bytes()) };
    let counts = profile(&scenario).unwrap_or_else(|_| exit(3));
    let run = run_of(&scenario, &counts, &mut Streams::of_run(scenario.seed, scenario.strategy), None);
    let mut steps = Vec::with_capacity(40 * run.journal.len());
    push_steps(&mut steps, &run);
    let mut out = Vec::with_capacity(1024 + 4 * run.journal.len());
    push_summary(&mut out, &run, &scenario.monitors);
    out.extend_from_slice(format!("journal {}\n", hex(&sha256(&steps))).as_bytes());
    print(&out);
}

fn check(file: &str) {
    let saved = saved_of(file);
    println!("replay 1\nscenario {}\nentries {}", hex(&saved.name), saved.entries.len());
}

// The replay of a saved run, on one thread.
fn replay(file: &str, saved: &str) {
    let bytes = bytes_of(file, FILE_LIMIT);
    let scenario = scenario_of(&bytes);
    let saved = saved_of(saved);
    let needed = sha256(&bytes);
    if saved.name != needed {
        println!("fault replay other_scenario {} {}", hex(&saved.name), hex(&needed));
        exit(6);
    }
    let counts = vec![0; scenario.routines.len()];
    tell(&run::<FOLLOW>(&scenario, &counts, &saved.entries, &mut Tapes::new(&[], &[])), &scenario);
}

// Prints the report and ends.
fn tell(run: &Run, scenario: &Scenario) {
    print(&report(run, &scenario.monitors));
    exit(match run.verdict {
        Verdict::Ended => i32::from(run.failed.iter().any(Option::is_some)),
        Verdict::Deadlock => 1,
        Verdict::WrongCount { .. } => 4,
        Verdict::Asked { .. } | Verdict::Left { .. } => 5,
        Verdict::StepLimit => 7,
        Verdict::Short { .. } | Verdict::Large { .. } => 11,
    });
}

// The run under the strategy of the scenario.
fn run_of(scenario: &Scenario, counts: &[u64], draws: &mut (impl Draws + Send), on_threads: Option<Sleep>) -> Run {
    match scenario.strategy {
        URW => run_under::<URW>(scenario, counts, draws, on_threads),
        SURW => run_under::<SURW>(scenario, counts, draws, on_threads),
        PCT => run_under::<PCT>(scenario, counts, draws, on_threads),
        _ => run_under::<PLAIN>(scenario, counts, draws, on_threads),
    }
}

fn run_under<const STRATEGY: u8>(
    scenario: &Scenario,
    counts: &[u64],
    draws: &mut (impl Draws + Send),
    on_threads: Option<Sleep>,
) -> Run {
    match on_threads {
        Some(sleep) => run_on_threads::<STRATEGY>(scenario, counts, draws, sleep),
        None => run::<STRATEGY>(scenario, counts, &[], draws),
    }
}
