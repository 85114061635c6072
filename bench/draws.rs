// Adds up draws from a seed as an ordinary, fast Rust program, to compare with `draw_sum`: SEED STREAM BOUND COUNT.
#[path = "plan/seeded.rs"]
mod seeded;

use seeded::Seeded;
use std::process::exit;

fn main() {
    let words: Option<Vec<u64>> = std::env::args().skip(1).map(|word| word.parse().ok()).collect();
    let Some(&[seed, stream, bound @ (1..), count]) = words.as_deref() else { exit(2) };
    let mut source = Seeded::new(seed, stream);
    let sum = (0..count).fold(0u64, |sum, _| sum.wrapping_add(source.below(bound)));
    println!("sum {sum}");
    println!("bent {}", source.bent());
}
