// The text of a run.
use super::cache::Frame;
use super::*;

pub fn push_number(out: &mut Vec<u8>, mut n: u64) {
    if n < 10 {
        out.push(b'0' + n as u8);
        return;
    }
    let mut digits = [0u8; 20];
    let mut at = 20;
    loop {
        at -= 1;
        digits[at] = b'0' + (n % 10) as u8;
        n /= 10;
        if n == 0 {
            break;
        }
    }
    out.extend_from_slice(&digits[at..]);
}

fn push_list(out: &mut Vec<u8>, word: &str, numbers: impl IntoIterator<Item = u64>) {
    out.extend_from_slice(word.as_bytes());
    for number in numbers {
        out.push(b' ');
        push_number(out, number);
    }
    out.push(b'\n');
}

// A list of which each item may be missing.
fn push_options(out: &mut Vec<u8>, word: &str, items: impl Iterator<Item = Option<u64>>) {
    out.extend_from_slice(word.as_bytes());
    for item in items {
        out.push(b' ');
        match item {
            Some(number) => push_number(out, number),
            None => out.push(b'-'),
        }
    }
    out.push(b'\n');
}

fn push_frames<'a>(out: &mut Vec<u8>, word: &str, frames: impl Iterator<Item = (usize, &'a Frame)>) {
    out.extend_from_slice(word.as_bytes());
    for (frame, held) in frames {
        out.push(b' ');
        push_number(out, frame as u64);
        for (sign, number) in [(b':', held.page as u64), (b'/', held.value), (b'/', held.stamp)] {
            out.push(sign);
            push_number(out, number);
        }
    }
    out.push(b'\n');
}

pub fn push_event(out: &mut Vec<u8>, event: &Event) {
    let (_, text, numbers, _) = VERBS[event.verb as usize];
    out.extend_from_slice(text.as_bytes());
    for number in &event.args[..numbers] {
        out.push(b' ');
        push_number(out, *number);
    }
}

#[inline(never)]
pub fn report(run: &Run, monitors: &[Monitor]) -> Vec<u8> {
    let mut out = Vec::with_capacity(1024 + 40 * run.journal.len());
    push_summary(&mut out, run, monitors);
    push_steps(&mut out, run);
    out
}

// Appends the lines of a run but those of its steps.
pub fn push_summary(out: &mut Vec<u8>, run: &Run, monitors: &[Monitor]) {
    let step = run.journal.len() as u64;
    match run.verdict {
        Verdict::Ended => out.extend_from_slice(b"verdict ended\n"),
        Verdict::Deadlock => push_list(out, "verdict deadlock", [step]),
        Verdict::WrongCount { thread, counted, seen } => {
            push_list(out, "verdict wrong_count", [step, thread as u64, counted, seen]);
        }
        Verdict::Short { place } => {
            out.extend_from_slice(b"verdict draw ");
            push_number(out, step);
            push_list(out, " short", [place as u64]);
        }
        Verdict::Large { place, kept, below } => {
            out.extend_from_slice(b"verdict draw ");
            push_number(out, step);
            push_list(out, " large", [place as u64, kept, below]);
        }
        Verdict::StepLimit => push_list(out, "verdict step_limit", [step]),
        Verdict::Asked { asked, announced } => {
            push_list(out, "verdict asked", [step, u64::from(asked.thread)]);
            out.pop();
            out.push(b' ');
            push_event(out, &asked.event);
            out.extend_from_slice(b"; announced ");
            match announced {
                Some(event) => push_event(out, &event),
                None => out.extend_from_slice(b"nothing"),
            }
            out.push(b'\n');
        }
        Verdict::Left { thread } => push_list(out, "verdict left", [step, thread as u64]),
    }
    let selected = run.journal.iter().filter(|entry| entry.chosen).count();
    let switches = run.journal.windows(2).filter(|pair| pair[0].thread != pair[1].thread).count();
    push_list(out, "steps", [step]);
    push_list(out, "selected", [selected as u64]);
    push_list(out, "forced", [run.journal.iter().filter(|entry| entry.forced).count() as u64]);
    push_list(out, "bent", [run.bent]);
    push_list(out, "switches", [switches as u64]);
    let order = run.journal.iter().filter(|entry| entry.chosen).map(|entry| u64::from(entry.thread));
    push_list(out, "order", order);
    for (thread, event) in run.announced.iter().enumerate() {
        if let Some(event) = event {
            out.extend_from_slice(b"next ");
            push_number(out, thread as u64);
            out.push(b' ');
            push_event(out, event);
            out.push(b'\n');
        }
    }
    push_list(out, "cells", run.cells.iter().copied());
    push_options(out, "locks", run.holders.iter().map(|holder| holder.map(|thread| thread as u64)));
    push_list(out, "free", run.cache.free());
    push_frames(out, "clean", run.cache.clean());
    push_frames(out, "dirty", run.cache.dirty());
    out.extend_from_slice(b"pages");
    for (value, stamp) in &run.cache.disk {
        out.push(b' ');
        push_number(out, *value);
        out.push(b'/');
        push_number(out, *stamp);
    }
    out.push(b'\n');
    push_options(out, "slots", run.log.reserved.iter().copied());
    push_list(out, "mark", [run.log.mark]);
    push_list(out, "checks", [run.checks]);
    for (monitor, failed) in monitors.iter().zip(&run.failed) {
        out.extend_from_slice(b"monitor ");
        let mut judged = true;
        match monitor {
            Monitor::WriteAhead => out.extend_from_slice(b"write_ahead"),
            Monitor::LogWhole => out.extend_from_slice(b"log_whole"),
            Monitor::Expect => out.extend_from_slice(b"expect"),
            Monitor::CellEnd { cell, value } => {
                out.extend_from_slice(b"cell_end ");
                push_number(out, *cell as u64);
                out.push(b' ');
                push_number(out, *value);
                judged = matches!(run.verdict, Verdict::Ended);
            }
        }
        match failed {
            Some(after) => push_list(out, " failed after", [*after as u64]),
            None if judged => out.extend_from_slice(b" held\n"),
            None => out.extend_from_slice(b" unjudged\n"),
        }
    }
}

// Appends the lines of its steps.
pub fn push_steps(out: &mut Vec<u8>, run: &Run) {
    for (step, entry) in run.journal.iter().enumerate() {
        out.extend_from_slice(b"step ");
        push_number(out, step as u64);
        out.push(b' ');
        push_number(out, u64::from(entry.thread));
        out.push(b' ');
        push_event(out, &entry.event);
        out.extend_from_slice(b" = ");
        push_number(out, entry.reply);
        if entry.forced {
            out.extend_from_slice(b" forced");
        }
        out.push(b'\n');
    }
}
