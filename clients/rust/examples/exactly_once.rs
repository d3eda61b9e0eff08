//! A service by libtd: each record is counted once, and each output stands once in FOLDER/outputs, whatever is killed or sent twice.
//!
//!     exactly_once FOLDER PLAN < REQUESTS         docs/LIBRARY.md says how it is built, and what a request is
//!
//! FOLDER/state has the number of the last request, the states after it, its outputs, and where they begin in `outputs`. It is written
//! whole beside the old one, synced and renamed, so a stop leaves one of the two. Then the outputs are put at their place, and each start
//! puts them there again. They are synced before the next request takes their place. So a request costs all states, and three syncs.

use std::error::Error;
use std::fmt::Write as _;
use std::fs::{self, File, OpenOptions};
use std::io::{self, ErrorKind, Write};
use std::os::unix::fs::FileExt;
use std::path::{Path, PathBuf};
use std::{env, process};

use td_c::{Plan, Record, State};

type Result<T> = std::result::Result<T, Box<dyn Error>>;

/// A plan over a folder with its file `outputs`, and what stands there after the last request.
struct Service {
    folder: PathBuf,
    file: File,
    text: String,
    plan: Plan,
    request: u64,
    states: Vec<State>,
    outputs: Vec<Record>,
    /// Where the outputs begin in their file, and where they end.
    place: u64,
    end: u64,
}

impl Service {
    /// Goes on in a folder, with which no other service works.
    fn open(folder: &Path, text: String) -> Result<Service> {
        let file = OpenOptions::new().write(true).create(true).truncate(false).open(folder.join("outputs"))?;
        file.try_lock()?;
        let (folder, plan) = (folder.to_path_buf(), Plan::new(text.as_str())?);
        let mut service = Service { folder, file, text, plan, request: 0, states: Vec::new(), outputs: Vec::new(), place: 0, end: 0 };
        match fs::read(service.folder.join("state")) {
            Ok(bytes) => service.read_state(&bytes)?,
            Err(error) if error.kind() == ErrorKind::NotFound => {}
            Err(error) => return Err(error.into()),
        }
        service.write_outputs()?;
        Ok(service)
    }

    /// Does a request, once: its answer. What libtd refuses changes nothing.
    fn put(&mut self, request: u64, records: &[Record]) -> Result<String> {
        if request <= self.request {
            return Ok(format!("again {request}"));
        }
        let outputs = match self.plan.epoch(&mut self.states, records) {
            Ok(outputs) => outputs,
            Err(refused) => return Ok(format!("refused {request}: {refused}")),
        };
        self.file.sync_all()?;
        (self.request, self.outputs, self.place) = (request, outputs, self.end);
        self.write_state()?;
        self.write_outputs()?;
        Ok(format!("done {request}"))
    }

    /// The file `state` has numbers of 64 bits in the machine's byte order, as C has them in its structs: the request, the place, how many
    /// states and outputs there are, the states and the outputs. Behind them stands the plan's text.
    fn write_state(&self) -> Result<()> {
        let mut bytes = Vec::new();
        let mut put = |numbers: &[u64]| numbers.iter().for_each(|it| bytes.extend(it.to_ne_bytes()));
        put(&[self.request, self.place, self.states.len() as u64, self.outputs.len() as u64]);
        self.states.iter().for_each(|it| put(&[it.vertex, it.key, it.a as u64, it.b as u64]));
        self.outputs.iter().for_each(|it| put(&[it.vertex, it.key, it.val as u64]));
        bytes.extend(self.text.as_bytes());
        let new = self.folder.join("state.new");
        let mut file = File::create(&new)?;
        file.write_all(&bytes)?;
        file.sync_all()?;
        fs::rename(&new, self.folder.join("state"))?;
        Ok(File::open(&self.folder)?.sync_all()?)
    }

    fn read_state(&mut self, bytes: &[u8]) -> Result<()> {
        let mut rest = bytes;
        let mut next = || -> Result<u64> {
            let (number, behind) = rest.split_first_chunk().ok_or("state: it is cut short")?;
            rest = behind;
            Ok(u64::from_ne_bytes(*number))
        };
        (self.request, self.place) = (next()?, next()?);
        let (states, outputs) = (next()?, next()?);
        for _ in 0..states {
            self.states.push(State { vertex: next()?, key: next()?, a: next()? as i64, b: next()? as i64 });
        }
        for _ in 0..outputs {
            self.outputs.push(Record { vertex: next()?, key: next()?, val: next()? as i64 });
        }
        if rest != self.text.as_bytes() {
            return Err("FOLDER is of another plan".into());
        }
        Ok(())
    }

    fn write_outputs(&mut self) -> Result<()> {
        if self.file.metadata()?.len() < self.place {
            return Err("outputs: it lacks lines".into());
        }
        let mut lines = String::new();
        for it in &self.outputs {
            writeln!(lines, "{} {} {} {}", self.request, it.vertex, it.key, it.val)?;
        }
        self.file.write_all_at(lines.as_bytes(), self.place)?;
        self.end = self.place + lines.len() as u64;
        Ok(())
    }
}

fn record_of(line: &str) -> Option<Record> {
    let mut words = line.split(' ');
    let record = Record { vertex: words.next()?.parse().ok()?, key: words.next()?.parse().ok()?, val: words.next()?.parse().ok()? };
    words.next().is_none().then_some(record)
}

/// Does the requests of standard input, one after another.
fn serve() -> Result<()> {
    let words: Vec<String> = env::args().skip(1).collect();
    let [folder, plan] = &words[..] else { return Err("usage: exactly_once FOLDER PLAN < REQUESTS".into()) };
    let mut service = Service::open(Path::new(folder), fs::read_to_string(plan)?)?;
    let (mut request, mut records) = (None, Vec::new());
    for line in io::stdin().lines() {
        let line = line?;
        match request {
            None => request = Some(line.strip_prefix("req ").and_then(|it| it.parse::<u64>().ok()).filter(|&it| it > 0).ok_or("no request")?),
            Some(number) if line == "." => {
                writeln!(io::stdout(), "{}", service.put(number, &records)?)?;
                (request, records) = (None, Vec::new());
            }
            Some(_) => records.push(record_of(&line).ok_or("no record")?),
        }
    }
    Ok(())
}

fn main() {
    if let Err(error) = serve() {
        eprintln!("exactly_once: {error}");
        process::exit(1);
    }
}
