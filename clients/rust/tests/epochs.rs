//! Epochs over states in memory are those that are handed all states.

use td_c::{Kept, Plan, Record, State};

/// Folds of the records' keys, of others that a map sends, and one that keeps a state and lets it go in turn.
const PLAN: &str = "0 input\n1 map 10000 0\n2 fold 40 0\n3 fold 40 1\n# 4 fold 9 0\n  4 fold 41 1 0\n5 output 2 3 4\n";
const CLOSURES: &str = "map 10000\n  send key % 7, val\n  send key * 3, val\n";

struct Random(u64);

impl Random {
    fn below(&mut self, most: u64) -> u64 {
        self.0 = self.0.wrapping_mul(6364136223846793005).wrapping_add(1442695040888963407);
        (self.0 >> 33) % most
    }

    fn record(&mut self) -> Record {
        Record { vertex: 0, key: self.below(60), val: self.below(9) as i64 - 4 }
    }
}

#[test]
fn epochs_over_some_states_are_those_over_all() {
    let plan = Plan::with_closures(PLAN, CLOSURES).unwrap();
    let (mut random, mut states, mut kept) = (Random(1), Vec::new(), Kept::default());
    for _ in 0..400 {
        let records: Vec<Record> = (0..random.below(8)).map(|_| random.record()).collect();
        let outputs = plan.epoch(&mut states, &records);
        assert_eq!(plan.epoch_of(&mut kept, &records), outputs);
        assert_eq!(kept.states(), states);
        if random.below(10) == 0 {
            kept = states.iter().copied().collect();
        }
    }
    assert!(states.len() > 50 && states.iter().all(|it| kept.get(it.vertex, it.key) == Some((it.a, it.b))));
}

#[test]
fn what_is_refused_changes_nothing() {
    let plan = Plan::with_closures(PLAN, CLOSURES).unwrap();
    let mut kept: Kept = [State { vertex: 2, key: 7, a: 5, b: 1 }].into_iter().collect();
    let before = kept.states();
    let records = [Record { vertex: 0, key: 7, val: 5 }, Record { vertex: 1, key: 7, val: 5 }];
    let refused = plan.epoch_of(&mut kept, &records).unwrap_err();
    assert_eq!((refused.number, refused.place, kept.states()), (13, 1, before));
    assert_eq!(plan.changes(&[], &records[..1]).unwrap().0[0].state(), Some((5, 1)));
}
