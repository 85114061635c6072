// The jobs `order` and `draws` as an ordinary, fast Rust program, to compare with.
use std::io::Write;
use std::process::exit;

const THREADS: usize = 16;
const STEPS: u64 = 65_536;

fn list(word: &[u8], line: &[u8]) -> Option<Vec<u64>> {
    let mut rest = line.strip_prefix(word)?;
    let mut numbers = Vec::new();
    while let [b' ', digits @ ..] = rest {
        let mut value = 0u64;
        let mut len = 0;
        while len < digits.len() && digits[len].is_ascii_digit() {
            value = value.checked_mul(10)?.checked_add(u64::from(digits[len] - b'0'))?;
            len += 1;
        }
        if len == 0 || (len > 1 && digits[0] == b'0') {
            return None;
        }
        numbers.push(value);
        rest = &digits[len..];
    }
    if rest.is_empty() { Some(numbers) } else { None }
}

fn push_number(out: &mut Vec<u8>, mut n: u64) {
    let mut digits = [0u8; 20];
    let mut at = 20;
    loop {
        at -= 1;
        digits[at] = b'0' + (n % 10) as u8;
        n /= 10;
        if n == 0 {
            break;
        }
    }
    out.push(b' ');
    out.extend_from_slice(&digits[at..]);
}

fn order(bytes: &[u8]) -> Vec<u8> {
    let mut lines = bytes.split(|b| *b == b'\n');
    let counts = list(b"counts", lines.next().unwrap()).unwrap();
    let draws = list(b"draws", lines.next().unwrap()).unwrap();
    let n: u64 = counts.iter().sum();
    if counts.len() > THREADS || n > STEPS || draws.len() as u64 != n {
        exit(11);
    }
    let mut left: Vec<u32> = counts.iter().map(|c| *c as u32).collect();
    let mut order: Vec<u8> = Vec::with_capacity(draws.len());
    let mut offsets: Vec<Vec<u32>> = counts.iter().map(|c| Vec::with_capacity(*c as usize)).collect();
    for (k, draw) in draws.iter().enumerate() {
        if *draw >= n - k as u64 {
            exit(11);
        }
        let mut rest = *draw as u32;
        let mut thread = 0;
        while rest >= left[thread] {
            rest -= left[thread];
            thread += 1;
        }
        left[thread] -= 1;
        order.push(thread as u8);
        offsets[thread].push(rest);
    }
    let mut out = Vec::new();
    out.extend_from_slice(b"order");
    for thread in &order {
        push_number(&mut out, u64::from(*thread));
    }
    out.push(b'\n');
    for (thread, list) in offsets.iter().enumerate() {
        out.extend_from_slice(b"offsets");
        push_number(&mut out, thread as u64);
        for offset in list {
            push_number(&mut out, u64::from(*offset));
        }
        out.push(b'\n');
    }
    out
}

fn draws(bytes: &[u8]) -> Vec<u8> {
    let mut lines = bytes.split(|b| *b == b'\n');
    let counts = list(b"counts", lines.next().unwrap()).unwrap();
    let order = list(b"order", lines.next().unwrap()).unwrap();
    let n: u64 = counts.iter().sum();
    if counts.len() > THREADS || n > STEPS {
        exit(3);
    }
    let mut offsets: Vec<Vec<u64>> = Vec::new();
    for thread in 0..counts.len() {
        let mut list = list(b"offsets", lines.next().unwrap()).unwrap();
        if list.first() != Some(&(thread as u64)) {
            exit(3);
        }
        list.remove(0);
        offsets.push(list);
    }
    let mut times = [0u64; THREADS];
    for thread in &order {
        times[*thread as usize] += 1;
    }
    for (thread, count) in counts.iter().enumerate() {
        let list = &offsets[thread];
        if times[thread] != *count || list.len() as u64 != *count {
            exit(11);
        }
        for (j, offset) in list.iter().enumerate() {
            if *offset >= *count - j as u64 {
                exit(11);
            }
        }
    }
    let mut left: Vec<u64> = counts.clone();
    let mut used = [0usize; THREADS];
    let mut draws: Vec<u64> = Vec::with_capacity(order.len());
    for thread in &order {
        let thread = *thread as usize;
        let lower: u64 = left[..thread].iter().sum();
        draws.push(lower + offsets[thread][used[thread]]);
        used[thread] += 1;
        left[thread] -= 1;
    }
    let mut out = Vec::new();
    out.extend_from_slice(b"draws");
    for draw in &draws {
        push_number(&mut out, *draw);
    }
    out.push(b'\n');
    out
}

fn main() {
    let words: Vec<String> = std::env::args().collect();
    let bytes = std::fs::read(&words[2]).unwrap();
    let out = if words[1] == "order" { order(&bytes) } else { draws(&bytes) };
    std::io::stdout().write_all(&out).unwrap();
}
