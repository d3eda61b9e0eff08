//! What `td batch` does with one plan, as a good programmer would write it for that one job: the yardstick of the bench.
//! The first word names the job, a second the bound of its loop; the text on standard input is what `td` is given.
//! Whatever is wrong with it ends the program.
use std::collections::BTreeMap;
use std::env;
use std::io::{Read, Write};

type Rec = (u64, i64);

/// The data lines, read by hand.
struct Data<'a> {
    bytes: &'a [u8],
}

impl Data<'_> {
    /// The next line's input, key and value, or `None` where it closes the epoch.
    fn line(&mut self) -> Option<(u64, Rec)> {
        if self.bytes[0] == b'.' {
            self.bytes = &self.bytes[2..];
            return None;
        }
        let input = self.number();
        let key = self.number();
        let negative = self.bytes[0] == b'-';
        if negative {
            self.bytes = &self.bytes[1..];
        }
        let digits = self.number();
        let val = if negative { (digits as i64).wrapping_neg() } else { digits as i64 };
        Some((input, (key, val)))
    }

    /// Digits and the byte behind them.
    fn number(&mut self) -> u64 {
        let mut number = 0;
        for (place, byte) in self.bytes.iter().enumerate() {
            if !byte.is_ascii_digit() {
                self.bytes = &self.bytes[place + 1..];
                return number;
            }
            number = number * 10 + u64::from(byte - b'0');
        }
        panic!("a line without an end");
    }
}

/// The output text, printed by hand.
struct Out {
    text: Vec<u8>,
    epoch: u64,
    vertex: u64,
}

impl Out {
    fn record(&mut self, key: u64, val: i64) {
        self.digits(self.epoch, b' ');
        self.digits(self.vertex, b' ');
        self.digits(key, b' ');
        if val < 0 {
            self.text.push(b'-');
        }
        self.digits(val.unsigned_abs(), b'\n');
    }

    fn digits(&mut self, mut number: u64, end: u8) {
        let mut digits = [0; 21];
        let mut start = 20;
        digits[start] = end;
        loop {
            start -= 1;
            digits[start] = b'0' + (number % 10) as u8;
            number /= 10;
            if number == 0 {
                break;
            }
        }
        self.text.extend_from_slice(&digits[start..]);
    }
}

/// What each job makes of the records of an epoch, those of input 0 and those of input 1.
struct Job {
    name: String,
    bound: i64,
    totals: BTreeMap<u64, i64>,
}

impl Job {
    fn vertex(&self) -> u64 {
        match self.name.as_str() {
            "loop" => 5,
            "ring" => 7,
            "both" => 3,
            "nested" => 15,
            _ => 2,
        }
    }

    fn close(&mut self, recs: &mut Vec<Rec>, others: &mut Vec<Rec>, out: &mut Out) {
        match self.name.as_str() {
            "count" => {
                recs.sort_unstable_by_key(|rec| rec.0);
                for run in recs.chunk_by(|a, b| a.0 == b.0) {
                    out.record(run[0].0, run.len() as i64);
                }
            }
            "sum" => {
                recs.sort_unstable();
                for run in recs.chunk_by(|a, b| a.0 == b.0) {
                    out.record(run[0].0, run.iter().fold(0, |sum, rec| sum.saturating_add(rec.1)));
                }
            }
            "total" => {
                recs.sort_unstable();
                for run in recs.chunk_by(|a, b| a.0 == b.0) {
                    let total = self.totals.entry(run[0].0).or_default();
                    *total = run.iter().fold(*total, |sum, rec| sum.saturating_add(rec.1));
                    out.record(run[0].0, *total);
                }
            }
            "loop" => {
                let bound = self.bound;
                let mut all: Vec<Rec> = recs.iter().flat_map(|rec| (1..=bound).map(move |k| (rec.0, rec.1 - k))).collect();
                all.sort_unstable();
                all.iter().for_each(|rec| out.record(rec.0, rec.1));
            }
            "ring" => {
                recs.sort_unstable();
                recs.dedup();
                let mut counts = [0; 4];
                for rec in recs.iter() {
                    (0..self.bound as u64).for_each(|turn| counts[((rec.0 + turn) % 4) as usize] += 1);
                }
                (0..).zip(counts).filter(|count| count.1 > 0).for_each(|(key, count)| out.record(key, count));
            }
            "both" => {
                recs.sort_unstable();
                others.sort_unstable();
                recs.dedup_by_key(|rec| rec.0);
                others.dedup_by_key(|rec| rec.0);
                let mut rest = others.as_slice();
                for rec in recs.iter() {
                    while rest.first().is_some_and(|other| other.0 < rec.0) {
                        rest = &rest[1..];
                    }
                    if let Some(other) = rest.first().filter(|other| other.0 == rec.0) {
                        out.record(rec.0, rec.1.saturating_add(other.1));
                    }
                }
            }
            "nested" => {
                recs.sort_unstable();
                recs.iter().for_each(|rec| out.record(rec.0, rec.1));
            }
            name => panic!("no job {name}"),
        }
    }
}

fn main() {
    let mut words = env::args().skip(1);
    let name = words.next().expect("a job");
    let bound = words.next().map_or(0, |word| word.parse().expect("a bound"));
    let mut job = Job { name, bound, totals: BTreeMap::new() };
    let mut text = Vec::new();
    std::io::stdin().read_to_end(&mut text).expect("input");
    let start = text.windows(4).position(|four| four == b"\n--\n").expect("a line `--`") + 4;
    let mut data = Data { bytes: &text[start..] };
    let mut out = Out { text: Vec::new(), epoch: 1, vertex: job.vertex() };
    let (mut recs, mut others) = (Vec::new(), Vec::new());
    while !data.bytes.is_empty() {
        match data.line() {
            Some((0, rec)) => recs.push(rec),
            Some((_, rec)) => others.push(rec),
            None => {
                job.close(&mut recs, &mut others, &mut out);
                recs.clear();
                others.clear();
                out.epoch += 1;
            }
        }
    }
    std::io::stdout().write_all(&out.text).expect("output");
}
