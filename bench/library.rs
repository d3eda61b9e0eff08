//! The way of a batch of records through the library's client: so many epochs, of so many records each, over so many keys. `kept` has each
//! epoch hand in the states that it asks for, and `all` all of them. It prints the seconds of the epochs, without that which makes the
//! keys, and the sum of the outputs' values.

use std::error::Error;
use std::{env, time::Instant};

use td_c::{Kept, Plan, Record, Refused};

/// Takes the time of epochs, each of which answers its outputs.
fn time_epochs([epochs, count, keys]: [u64; 3], mut epoch: impl FnMut(&[Record]) -> Result<Vec<Record>, Refused>) -> Result<(), Refused> {
    let first: Vec<Record> = (0..keys).map(|key| Record { vertex: 0, key, val: 1 }).collect();
    let mut sum: i64 = epoch(&first)?.iter().map(|it| it.val).sum();
    let (begun, mut seed) = (Instant::now(), 1u64);
    for _ in 0..epochs {
        let mut records = Vec::with_capacity(count as usize);
        for _ in 0..count {
            seed = seed.wrapping_mul(6364136223846793005).wrapping_add(1442695040888963407);
            records.push(Record { vertex: 0, key: (seed >> 33) % keys, val: 1 });
        }
        sum += epoch(&records)?.iter().map(|it| it.val).sum::<i64>();
    }
    println!("{} {sum}", begun.elapsed().as_secs_f64());
    Ok(())
}

fn main() -> Result<(), Box<dyn Error>> {
    let words: Vec<String> = env::args().skip(1).collect();
    let [way, epochs, count, keys] = &words[..] else { return Err("kept|all EPOCHS RECORDS KEYS".into()) };
    let case = [epochs.parse()?, count.parse()?, keys.parse()?];
    let plan = Plan::new("0 input\n1 fold 40 0\n2 output 1\n")?;
    let (mut kept, mut states) = (Kept::default(), Vec::new());
    if way == "kept" {
        time_epochs(case, |records| plan.epoch_of(&mut kept, records))?;
    } else {
        time_epochs(case, |records| plan.epoch(&mut states, records))?;
    }
    Ok(())
}
