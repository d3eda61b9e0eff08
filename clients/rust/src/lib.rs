//! One epoch of a dataflow plan at a time, by the proved library libtd. The caller keeps the states, and hands them in.
//!
//! `docs/LIBRARY.md` of the repository says what is proved of it.

mod kept;

use std::fmt;

pub use kept::Kept;

/// A record of an epoch, where `vertex` is the input that it comes to, or of its outputs, where it is the output.
#[derive(Clone, Copy, Debug, Default, PartialEq, Eq)]
#[repr(C)]
pub struct Record {
    pub vertex: u64,
    pub key: u64,
    pub val: i64,
}

/// What the fold `vertex` keeps for a key.
#[derive(Clone, Copy, Debug, Default, PartialEq, Eq)]
#[repr(C)]
pub struct State {
    pub vertex: u64,
    pub key: u64,
    pub a: i64,
    pub b: i64,
}

/// What becomes of the state that the fold `vertex` keeps for a key: `is_kept` is 1 where it keeps a and b after the epoch, and 0 where it
/// keeps none.
#[derive(Clone, Copy, Debug, Default, PartialEq, Eq)]
#[repr(C)]
pub struct Change {
    pub vertex: u64,
    pub key: u64,
    pub is_kept: u64,
    pub a: i64,
    pub b: i64,
}

impl Change {
    /// What is kept after the epoch.
    pub fn state(&self) -> Option<(i64, i64)> {
        (self.is_kept != 0).then_some((self.a, self.b))
    }
}

#[derive(Clone, Copy)]
#[repr(C)]
struct Counts {
    states: usize,
    outputs: usize,
}

#[rustfmt::skip]
extern "C" {
    fn td_check_with(text: *const u8, text_len: usize, closures: *const u8, closures_len: usize, place: *mut u64) -> u32;
    fn td_epoch_with(
        text: *const u8, text_len: usize, closures: *const u8, closures_len: usize, records: *const Record, records_len: usize,
        states: *mut State, states_len: usize, outputs: *mut Record, outputs_len: usize, counts: *mut Counts, place: *mut u64,
    ) -> u32;
    fn td_changes(
        text: *const u8, text_len: usize, closures: *const u8, closures_len: usize, records: *const Record, records_len: usize,
        states: *const State, states_len: usize, changes: *mut Change, changes_len: usize, outputs: *mut Record, outputs_len: usize,
        counts: *mut Counts, place: *mut u64,
    ) -> u32;
}

const DONE: u32 = 0;
const ROOM: u32 = 17;

/// Why a call did nothing: its number, as in `td.h`, and the line, vertex or index that goes with it.
#[derive(Clone, Copy, Debug, PartialEq, Eq)]
pub struct Refused {
    pub number: u32,
    pub place: u64,
}

impl fmt::Display for Refused {
    fn fmt(&self, f: &mut fmt::Formatter<'_>) -> fmt::Result {
        write!(f, "libtd answers {} at {}", self.number, self.place)
    }
}

impl std::error::Error for Refused {}

/// A plan that the library has read, and found without a fault; and a text of closures beside those of the catalogue, of which an empty one
/// has none.
#[derive(Clone, Debug)]
pub struct Plan {
    text: String,
    closures: String,
    folds: Vec<u64>,
}

impl Plan {
    /// A plan by the closures of the catalogue.
    pub fn new(text: impl Into<String>) -> Result<Plan, Refused> {
        Plan::with_closures(text, "")
    }

    /// A plan by the closures of the catalogue, and those of a text beside them (`docs/CLOSURES.md`).
    pub fn with_closures(text: impl Into<String>, closures: impl Into<String>) -> Result<Plan, Refused> {
        let (text, closures) = (text.into(), closures.into());
        let mut place = 0;
        // SAFETY: each text is as long as is said, and `place` is a place of its own.
        let number = unsafe { td_check_with(text.as_ptr(), text.len(), closures.as_ptr(), closures.len(), &mut place) };
        if number == DONE {
            Ok(Plan { folds: text.lines().filter_map(fold_of).collect(), text, closures })
        } else {
            Err(Refused { number, place })
        }
    }

    /// One epoch: `states` are those before it, in any order, and become those after it. Its outputs are answered; both are sorted. A
    /// refusal leaves the states as they were.
    pub fn epoch(&self, states: &mut Vec<State>, records: &[Record]) -> Result<Vec<Record>, Refused> {
        let before = states.len();
        let mut outputs = Vec::with_capacity(records.len());
        states.reserve(records.len());
        loop {
            let mut counts = Counts { states: before, outputs: 0 };
            let mut place = 0;
            // SAFETY: each array is as long as is said, no two overlap, and a slice's pointer is never null.
            let number = unsafe {
                td_epoch_with(
                    self.text.as_ptr(),
                    self.text.len(),
                    self.closures.as_ptr(),
                    self.closures.len(),
                    records.as_ptr(),
                    records.len(),
                    states.as_mut_ptr(),
                    states.capacity(),
                    outputs.as_mut_ptr(),
                    outputs.capacity(),
                    &mut counts,
                    &mut place,
                )
            };
            match number {
                DONE => {
                    // SAFETY: the library has written so many of each.
                    unsafe {
                        states.set_len(counts.states);
                        outputs.set_len(counts.outputs);
                    }
                    return Ok(outputs);
                }
                ROOM => {
                    states.reserve(counts.states.saturating_sub(before));
                    outputs.reserve(counts.outputs);
                }
                _ => return Err(Refused { number, place }),
            }
        }
    }

    /// What one epoch changes, and its outputs, both sorted. `given` are some of the states before it, in any order. The answer is that of
    /// all states that are kept, as long as `given` has each of them that stands where a change is.
    pub fn changes(&self, given: &[State], records: &[Record]) -> Result<(Vec<Change>, Vec<Record>), Refused> {
        let (text, closures) = (&self.text, &self.closures);
        let mut changes = Vec::with_capacity(records.len() * self.folds.len());
        let mut outputs = Vec::with_capacity(records.len());
        loop {
            let mut counts = Counts { states: 0, outputs: 0 };
            let mut place = 0;
            // SAFETY: each array is as long as is said, no two overlap, and a slice's pointer is never null.
            #[rustfmt::skip]
            let number = unsafe {
                td_changes(
                    text.as_ptr(), text.len(), closures.as_ptr(), closures.len(), records.as_ptr(), records.len(), given.as_ptr(), given.len(),
                    changes.as_mut_ptr(), changes.capacity(), outputs.as_mut_ptr(), outputs.capacity(), &mut counts, &mut place,
                )
            };
            match number {
                DONE => {
                    // SAFETY: the library has written so many of each.
                    unsafe {
                        changes.set_len(counts.states);
                        outputs.set_len(counts.outputs);
                    }
                    return Ok((changes, outputs));
                }
                ROOM => {
                    changes.reserve(counts.states);
                    outputs.reserve(counts.outputs);
                }
                _ => return Err(Refused { number, place }),
            }
        }
    }

    /// One epoch over states in memory, which become those after it. Its outputs are answered, sorted. It costs its records, whatever is
    /// kept: it hands in the states of their keys, and then those that changes name beside them. A refusal leaves the states as they were.
    pub fn epoch_of(&self, kept: &mut Kept, records: &[Record]) -> Result<Vec<Record>, Refused> {
        let mut given = Vec::with_capacity(records.len());
        kept.begin();
        for &fold in &self.folds {
            records.iter().for_each(|it| kept.hand_in((fold, it.key), &mut given));
        }
        loop {
            let (changes, outputs) = self.changes(&given, records)?;
            let handed_in = given.len();
            changes.iter().for_each(|it| kept.hand_in((it.vertex, it.key), &mut given));
            if given.len() == handed_in {
                kept.apply(&changes);
                return Ok(outputs);
            }
        }
    }
}

/// The number of a fold, where a line of a plan has one.
fn fold_of(line: &str) -> Option<u64> {
    let mut words = line.split_whitespace();
    let number = words.next()?.parse().ok()?;
    (words.next()? == "fold").then_some(number)
}
