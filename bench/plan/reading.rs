// Reads a scenario from the part of TOML that such files hold.
use super::routines::{CacheUser, Flusher, Line, LogWriter, Operand, Steps};
use super::*;

fn number(text: &str) -> Option<u64> {
    let digits = text.as_bytes();
    if digits.is_empty() || !digits.iter().all(u8::is_ascii_digit) || (digits.len() > 1 && digits[0] == b'0') {
        return None;
    }
    text.parse().ok()
}

fn register(word: &str) -> Option<usize> {
    match word {
        "r0" => Some(0),
        "r1" => Some(1),
        "r2" => Some(2),
        "r3" => Some(3),
        _ => None,
    }
}

fn operand(word: &str) -> Option<Operand> {
    register(word).map(Operand::Register).or_else(|| number(word).map(Operand::Number))
}

fn line(text: &str) -> Option<Line> {
    let words: Vec<&str> = text.split(' ').collect();
    match words[..] {
        ["plus", into, by] => Some(Line::Plus { register: register(into)?, by: operand(by)? }),
        ["skip", over, "if", left, sign, with] => Some(Line::Skip {
            over: number(over).filter(|over| *over <= 256)? as usize,
            register: register(left)?,
            equal: match sign {
                "=" => true,
                "!=" => false,
                _ => return None,
            },
            with: operand(with)?,
        }),
        [verb, ref rest @ ..] => {
            let (verb, _, needed, _) = *VERBS.iter().find(|(_, text, ..)| *text == verb)?;
            let (numbers, into) = match *rest {
                [ref numbers @ .., "->", into] => (numbers, Some(register(into)?)),
                _ => (rest, None),
            };
            if numbers.len() != needed {
                return None;
            }
            let mut args = [Operand::Number(0); 3];
            for (arg, word) in args.iter_mut().zip(numbers) {
                *arg = operand(word)?;
            }
            Some(Line::Act { verb, args, into })
        }
        [] => None,
    }
}

fn pickable(text: &str) -> Option<Pickable> {
    if text == "all" {
        return Some(Pickable::Every);
    }
    if let Some((class, _)) = CLASSES.iter().find(|(_, word)| *word == text) {
        return Some(Pickable::Class(*class));
    }
    match text.split_once(' ')? {
        ("lock", object) => number(object).map(|object| Pickable::Object(Class::Lock, object)),
        ("cell", object) => number(object).map(|object| Pickable::Object(Class::Cell, object)),
        _ => None,
    }
}

fn monitor(text: &str, cells: usize) -> Option<Monitor> {
    match text {
        "write_ahead" => Some(Monitor::WriteAhead),
        "log_whole" => Some(Monitor::LogWhole),
        "expect" => Some(Monitor::Expect),
        _ => {
            let (cell, value) = text.strip_prefix("cell_end ")?.split_once(' ')?;
            let cell = number(cell).filter(|cell| *cell < cells as u64)?;
            Some(Monitor::CellEnd { cell: cell as usize, value: number(value)? })
        }
    }
}

// The part of TOML that is needed: headers, keys, whole numbers, truth values, strings without escapes, and
// arrays of numbers and of strings.
struct Reader<'a> {
    text: &'a str,
    at: usize,
}

enum Value<'a> {
    Number(u64),
    Truth(bool),
    Text(&'a str),
    Numbers(Vec<u64>),
    Texts(Vec<&'a str>),
}

impl<'a> Value<'a> {
    fn within(self, least: u64, most: u64) -> Option<u64> {
        match self {
            Value::Number(number) if least <= number && number <= most => Some(number),
            _ => None,
        }
    }

    fn truth(self) -> Option<bool> {
        match self {
            Value::Truth(truth) => Some(truth),
            _ => None,
        }
    }

    fn numbers(self, items: u64, most: u64) -> Option<Vec<u64>> {
        match self {
            Value::Numbers(list) if list.len() as u64 <= items && list.iter().all(|n| *n <= most) => Some(list),
            _ => None,
        }
    }

    fn texts(self, items: usize) -> Option<Vec<&'a str>> {
        match self {
            Value::Texts(list) if list.len() <= items => Some(list),
            Value::Numbers(list) if list.is_empty() => Some(Vec::new()),
            _ => None,
        }
    }
}

impl<'a> Reader<'a> {
    fn peek(&self) -> Option<u8> {
        self.text.as_bytes().get(self.at).copied()
    }

    fn eat(&mut self, byte: u8) -> Option<()> {
        (self.peek() == Some(byte)).then(|| self.at += 1)
    }

    fn eat_word(&mut self, word: &str) -> Option<()> {
        self.text.as_bytes()[self.at..].starts_with(word.as_bytes()).then(|| self.at += word.len())
    }

    fn spaces(&mut self) {
        while let Some(b' ' | b'\t') = self.peek() {
            self.at += 1;
        }
    }

    // Passes over spaces, line ends and comments.
    fn blank(&mut self) {
        loop {
            match self.peek() {
                Some(b' ' | b'\t' | b'\n' | b'\r') => self.at += 1,
                Some(b'#') => {
                    while self.peek().is_some_and(|byte| byte != b'\n') {
                        self.at += 1;
                    }
                }
                _ => return,
            }
        }
    }

    fn line_end(&mut self) -> Option<()> {
        self.spaces();
        matches!(self.peek(), None | Some(b'\n' | b'\r' | b'#')).then_some(())
    }

    fn key(&mut self) -> &'a str {
        let from = self.at;
        while let Some(b'a'..=b'z' | b'_' | b'.') = self.peek() {
            self.at += 1;
        }
        &self.text[from..self.at]
    }

    fn number(&mut self) -> Option<u64> {
        let digits = &self.text.as_bytes()[self.at..];
        let mut value = 0u64;
        let mut len = 0;
        while let Some(digit @ b'0'..=b'9') = digits.get(len) {
            value = value.checked_mul(10)?.checked_add(u64::from(digit - b'0'))?;
            len += 1;
        }
        self.at += len;
        let leading = len > 1 && digits[0] == b'0';
        (len > 0 && !leading && value <= MOST).then_some(value)
    }

    fn string(&mut self) -> Option<&'a str> {
        self.eat(b'"')?;
        let from = self.at;
        loop {
            match self.peek()? {
                b'"' => break,
                b'\\' | b'\n' => return None,
                _ => self.at += 1,
            }
        }
        self.at += 1;
        Some(&self.text[from..self.at - 1])
    }

    fn array<T>(&mut self, item: fn(&mut Self) -> Option<T>) -> Option<Vec<T>> {
        let mut list = Vec::new();
        loop {
            self.blank();
            if self.eat(b']').is_some() {
                return Some(list);
            }
            list.push(item(self)?);
            self.blank();
            if self.eat(b',').is_none() {
                self.eat(b']')?;
                return Some(list);
            }
        }
    }

    fn value(&mut self) -> Option<Value<'a>> {
        match self.peek()? {
            b'"' => self.string().map(Value::Text),
            b'[' => {
                self.at += 1;
                self.blank();
                if self.peek() == Some(b'"') {
                    self.array(Self::string).map(Value::Texts)
                } else {
                    self.array(Self::number).map(Value::Numbers)
                }
            }
            b't' => self.eat_word("true").map(|()| Value::Truth(true)),
            b'f' => self.eat_word("false").map(|()| Value::Truth(false)),
            _ => self.number().map(Value::Number),
        }
    }
}

// The keys of a thread that aren't looked at yet.
#[derive(Default)]
struct Keys<'a>(Vec<(&'a str, Value<'a>)>);

impl<'a> Keys<'a> {
    fn take(&mut self, key: &str) -> Option<Value<'a>> {
        let at = self.0.iter().position(|(other, _)| *other == key)?;
        Some(self.0.swap_remove(at).1)
    }

    fn number(&mut self, key: &str, least: u64, most: u64) -> Option<u64> {
        self.take(key)?.within(least, most)
    }

    // What a key that may be left out says. None where it isn't as asked.
    fn option<T>(&mut self, key: &str, asked: impl Fn(Value<'a>) -> Option<T>) -> Option<Option<T>> {
        match self.take(key) {
            None => Some(None),
            Some(value) => asked(value).map(Some),
        }
    }

    fn routine(mut self) -> Option<Routine> {
        let Some(Value::Text(kind)) = self.take("kind") else { return None };
        let routine = match kind {
            "steps" => {
                let lines = self.take("lines")?.texts(256)?.into_iter().map(line).collect::<Option<_>>()?;
                let times = self.option("times", |value| value.within(1, 4096))?;
                Routine::Steps(Steps::new(lines, times.unwrap_or(1)))
            }
            "cache_user" => {
                let lock = self.option("lock", |value| value.within(0, 7))?;
                Routine::CacheUser(CacheUser::new(self.number("page", 0, 255)?, self.number("expect", 0, MOST)?, lock))
            }
            "flusher" => {
                let mark_first = self.option("mark_first", Value::truth)?;
                Routine::Flusher(Flusher::new(self.number("rounds", 0, 16_384)?, mark_first.unwrap_or(true)))
            }
            "log_writer" => {
                Routine::LogWriter(LogWriter::new(self.number("page", 0, 255)?, self.number("value", 0, MOST)?))
            }
            _ => return None,
        };
        self.0.is_empty().then_some(routine)
    }
}

#[inline(never)]
pub fn read(text: &str) -> Option<Scenario> {
    let mut reader = Reader { text, at: 0 };
    let mut max_steps = STEPS;
    let mut strategy = "surw";
    let mut seed = 0;
    let mut depth = 3;
    let mut select = vec![Pickable::Every];
    let mut counts = None;
    let mut monitors = Vec::new();
    let (mut cells, mut locks, mut frames, mut pages, mut slots) = (0, 0, 0, 0, 0);
    let mut tapes: Option<(Vec<u64>, Vec<u64>)> = None;
    let mut threads: Vec<Keys> = Vec::new();
    let mut table = "";
    loop {
        reader.blank();
        if reader.peek().is_none() {
            break;
        }
        if reader.eat_word("[[thread]]").is_some() {
            table = "thread";
            threads.push(Keys::default());
        } else if reader.eat_word("[world]").is_some() {
            table = "world";
        } else if reader.eat_word("[tapes]").is_some() {
            table = "tapes";
            tapes.get_or_insert_with(Default::default);
        } else {
            let key = reader.key();
            reader.spaces();
            reader.eat(b'=')?;
            reader.spaces();
            let value = reader.value()?;
            let path = if table.is_empty() { key.split_once('.').unwrap_or(("", key)) } else { (table, key) };
            match path {
                ("", "max_steps") => max_steps = value.within(1, STEPS)?,
                ("", "strategy") => match value {
                    Value::Text(text) => strategy = text,
                    _ => return None,
                },
                ("", "seed") => seed = value.within(0, MOST)?,
                ("", "depth") => depth = value.within(1, 16)?,
                ("", "select") => select = value.texts(32)?.into_iter().map(pickable).collect::<Option<_>>()?,
                ("", "counts") => match value {
                    Value::Text("profile") => counts = None,
                    list => counts = Some(list.numbers(THREADS as u64, STEPS)?),
                },
                ("", "monitors") => monitors = value.texts(16)?,
                ("world", "cells") => cells = value.within(0, 64)? as usize,
                ("world", "locks") => locks = value.within(0, 8)? as usize,
                ("world", "frames") => frames = value.within(0, 64)? as usize,
                ("world", "pages") => pages = value.within(0, 256)? as usize,
                ("world", "slots") => slots = value.within(0, 4096)? as usize,
                ("tapes", "selected") => tapes.get_or_insert_with(Default::default).0 = value.numbers(STEPS, MAX)?,
                ("tapes", "other") => tapes.get_or_insert_with(Default::default).1 = value.numbers(STEPS, MAX)?,
                ("thread", key) => threads.last_mut()?.0.push((key, value)),
                _ => return None,
            }
        }
        reader.line_end()?;
    }
    let strategy = match strategy {
        "urw" => URW,
        "surw" => SURW,
        "pct" => PCT,
        "plain" => PLAIN,
        _ => return None,
    };
    let fits = |counts: &Vec<u64>| counts.len() == threads.len() && counts.iter().sum::<u64>() <= STEPS;
    if threads.len() > THREADS || !counts.as_ref().is_none_or(fits) {
        return None;
    }
    let routines = threads.into_iter().map(Keys::routine).collect::<Option<_>>()?;
    let monitors = monitors.into_iter().map(|text| monitor(text, cells)).collect::<Option<_>>()?;
    Some(Scenario {
        max_steps,
        strategy,
        seed,
        depth,
        select,
        counts,
        monitors,
        cells,
        locks,
        frames,
        pages,
        slots,
        tapes,
        routines,
    })
}
