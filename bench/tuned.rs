//! What `td batch` does with one plan, tuned for that one job as far as it goes in plain Rust: digits are read where they stand, keys
//! are sorted as bare numbers or looked up in a hash table, digits are written by hand. The first word is `count` or `total`; the
//! text on standard input is what `td` is given, without comments. Whatever is wrong with it ends the program.
use std::env;
use std::io::{Read, Write};

/// The bytes that are left to read.
struct Data<'a>(&'a [u8]);

impl Data<'_> {
    /// The next line's key and value, or `None` where it closes the epoch. The input's number is one digit.
    fn line(&mut self) -> Option<(u64, i64)> {
        if self.0[0] == b'.' {
            self.0 = &self.0[2..];
            return None;
        }
        self.0 = &self.0[2..];
        let key = self.number();
        let negative = self.0[0] == b'-';
        self.0 = &self.0[usize::from(negative)..];
        let digits = self.number() as i64;
        Some((key, if negative { -digits } else { digits }))
    }

    /// Digits, and the byte behind them.
    fn number(&mut self) -> u64 {
        let mut number = 0;
        let mut place = 0;
        while self.0[place] >= b'0' {
            number = number * 10 + u64::from(self.0[place] - b'0');
            place += 1;
        }
        self.0 = &self.0[place + 1..];
        number
    }
}

/// The output text, and the start of each line of the epoch.
struct Out {
    text: Vec<u8>,
    start: Vec<u8>,
}

impl Out {
    fn record(&mut self, key: u64, val: i64) {
        let mut line = [b'\n'; 44];
        let mut at = digits(&mut line, 43, val.unsigned_abs());
        if val < 0 {
            at -= 1;
            line[at] = b'-';
        }
        line[at - 1] = b' ';
        at = digits(&mut line, at - 1, key);
        self.text.extend_from_slice(&self.start);
        self.text.extend_from_slice(&line[at..]);
    }
}

/// Writes digits that end at a place, and answers where they start.
fn digits(line: &mut [u8; 44], end: usize, mut number: u64) -> usize {
    let mut at = end;
    loop {
        at -= 1;
        line[at] = b'0' + (number % 10) as u8;
        number /= 10;
        if number == 0 {
            return at;
        }
    }
}

/// Totals by key: a table of places, of which an empty one has no mark. It has more places than keys.
struct Totals {
    places: Vec<(u64, i64, bool)>,
    used: usize,
}

impl Totals {
    fn place(&self, key: u64) -> usize {
        let last = self.places.len() - 1;
        let mut at = (key.wrapping_mul(0x9E37_79B9_7F4A_7C15) >> 32) as usize & last;
        while self.places[at].2 && self.places[at].0 != key {
            at = (at + 1) & last;
        }
        at
    }

    fn add(&mut self, key: u64, val: i64) {
        if self.used * 2 >= self.places.len() {
            let old = std::mem::replace(&mut self.places, vec![(0, 0, false); 0]);
            self.places = vec![(0, 0, false); (old.len() * 2).max(1024)];
            for each in old.into_iter().filter(|each| each.2) {
                let at = self.place(each.0);
                self.places[at] = each;
            }
        }
        let at = self.place(key);
        self.used += usize::from(!self.places[at].2);
        self.places[at] = (key, self.places[at].1.saturating_add(val), true);
    }
}

fn main() {
    let job = env::args().nth(1).unwrap();
    let mut bytes = Vec::new();
    std::io::stdin().read_to_end(&mut bytes).unwrap();
    let start = bytes.windows(4).position(|four| four == b"\n--\n").unwrap() + 4;
    let mut data = Data(&bytes[start..]);
    let mut out = Out { text: Vec::new(), start: Vec::new() };
    let mut totals = Totals { places: Vec::new(), used: 0 };
    let (mut epoch, mut keys) = (1, Vec::new());
    while !data.0.is_empty() {
        out.start = format!("{epoch} 2 ").into_bytes();
        while let Some((key, val)) = data.line() {
            keys.push(key);
            if job == "total" {
                totals.add(key, val);
            }
        }
        keys.sort_unstable();
        for run in keys.chunk_by(|a, b| a == b) {
            let total = if job == "total" { totals.places[totals.place(run[0])].1 } else { run.len() as i64 };
            out.record(run[0], total);
        }
        keys.clear();
        epoch += 1;
    }
    std::io::stdout().write_all(&out.text).unwrap();
}
