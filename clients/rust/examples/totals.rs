//! A running total of each key. Lines of standard input are `KEY VALUE`, or `.`, which ends an epoch; each total that an epoch changes is
//! printed as `EPOCH VERTEX KEY TOTAL`, as `td batch` prints it.

use std::error::Error;
use std::io;

use td_c::{Kept, Plan, Record};

fn main() -> Result<(), Box<dyn Error>> {
    let plan = Plan::new("0 input\n1 fold 40 0\n2 output 1\n")?;
    let (mut kept, mut records, mut epoch) = (Kept::default(), Vec::new(), 0u64);
    for line in io::stdin().lines() {
        let line = line?;
        if let Some((key, val)) = line.split_once(' ') {
            records.push(Record { vertex: 0, key: key.parse()?, val: val.parse()? });
        } else if line == "." {
            epoch += 1;
            for output in plan.epoch_of(&mut kept, &records)? {
                println!("{epoch} {} {} {}", output.vertex, output.key, output.val);
            }
            records.clear();
        }
    }
    Ok(())
}
