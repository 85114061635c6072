// Makes the run of a scenario on one thread, or follows the entries of a saved one.
use super::*;

// The counts by profile: of the selected events of a plain run by a stream of its own under `surw`, and of all its
// events else. Or why that run stops. That the monitors look on changes nothing.
#[inline(never)]
pub fn profile(scenario: &Scenario) -> Result<Vec<u64>, String> {
    let none = vec![0; scenario.routines.len()];
    let run = run::<PLAIN>(scenario, &none, &[], &mut Streams::of_profile(scenario.seed));
    match run.verdict {
        Verdict::Ended => {
            let mut counts = vec![0; scenario.routines.len()];
            for entry in run.journal.iter().filter(|entry| scenario.strategy != SURW || entry.chosen) {
                counts[usize::from(entry.thread)] += 1;
            }
            Ok(counts)
        }
        Verdict::Deadlock => Err(format!("deadlock {}", run.journal.len())),
        _ => Err("step_limit".to_string()),
    }
}

#[inline(never)]
pub fn run<const STRATEGY: u8>(
    scenario: &Scenario,
    counts: &[u64],
    followed: &[Asked],
    draws: &mut impl Draws,
) -> Run {
    let mut routines = scenario.routines.clone();
    let announced = routines.iter_mut().map(Routine::announce).collect();
    let mut core = Core::<STRATEGY, _>::new(scenario, counts, followed, draws, announced);
    let verdict = loop {
        match core.decide() {
            Ok(thread) => {
                let reply = core.perform(thread);
                let routine = &mut routines[thread];
                routine.take(reply);
                core.say(thread, routine.announce());
            }
            Err(verdict) => break verdict,
        }
    };
    core.finish(verdict)
}
