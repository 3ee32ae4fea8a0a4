//! Demand 3 as a trial: histories with stops, recoveries that are stopped too, and rebuilding, beside a plain map.

use std::collections::BTreeMap;

use crate::chance::Chance;
use crate::door::{Call, Outcome, IMAGE};
use crate::make;
use crate::model::file::Header;
use crate::model::names::{is_legal_name, BLANK};

/// A closed world of names: every legal one of one to three digits over the blank and three others, and a few long ones.
fn world(chance: &mut Chance) -> Vec<Vec<u8>> {
    let alphabet = [BLANK, 0x21, chance.between(0x22, 0x7C) as u8, 0x7D];
    let mut names: Vec<Vec<u8>> = Vec::new();
    let mut last: Vec<Vec<u8>> = vec![Vec::new()];
    for _ in 0..3 {
        last = last.iter().flat_map(|name| alphabet.iter().map(move |digit| [&name[..], &[*digit]].concat())).collect();
        names.extend(last.iter().filter(|name| is_legal_name(name)).cloned());
    }
    let style = *chance.pick(&make::STYLES);
    names.extend(make::names(chance, style, 20));
    names
}

/// Tells one history. `call` makes a call and gives what it left behind. The answer is how many merges were stopped between
/// their two stores.
///
/// R13.3: from a new file, puts and removes in any order, any of them stopped after any of its stores. After a stop the
/// trie is thrown away, the file recovered (again, if that was stopped too) and the trie rebuilt. What was stopped
/// before its last store counts as never made, but a removal that merges counts from its first store on. Every legal name
/// looks up as this history says, and nothing refuses a recovery or the rebuilding after it.
pub fn tell(seed: u64, mut call: impl FnMut(Call) -> Outcome) -> usize {
    let mut chance = Chance::new(seed);
    let b = chance.between(2, 5);
    let slots = chance.between(1, 24);
    let header = Header::new(make::version(&mut chance), b, slots);
    let names = world(&mut chance);
    // Each name's value and run; a version without runs gives 0.
    let mut history: BTreeMap<Vec<u8>, [u64; 2]> = BTreeMap::new();
    let made = call(Call::Create {
        file: vec![chance.byte(); header.file_length()],
        version: header.version,
        b: b as u64,
        slots: slots as u64,
        trie: vec![0; IMAGE],
    });
    assert_eq!(made.answer, 150);
    let (mut file, mut trie) = (made.file, made.trie);
    let mut merges_stopped = 0;
    for step in 0..60 {
        let mut name = chance.pick(&names).clone();
        // In the middle more is removed than put, and mostly what is held.
        let puts = if (20..45).contains(&step) { 30 } else { 80 };
        let removes = !chance.percent(puts);
        if removes && !history.is_empty() && chance.percent(75) {
            let held: Vec<&Vec<u8>> = history.keys().collect();
            name = chance.pick(&held).to_vec();
        }
        let limit = chance.below(3) as u64;
        // Now and then a refused call: it changes nothing.
        let (asked, limit) = match chance.below(20) {
            0 => (make::illegal_name(&mut chance), limit),
            1 => (name.clone(), 3),
            _ => (name.clone(), limit),
        };
        let outcome = if !removes {
            let (value, run) = (chance.word(), make::run(&mut chance));
            let outcome = call(Call::Put { file: file.clone(), trie: trie.clone(), name: asked, value, run, limit });
            let content = [value, if header.has_runs() { run } else { 0 }];
            match outcome.answer {
                110 => assert!(history.insert(name, content).is_none()),
                111 => {
                    let old = history.insert(name, content).expect("what is replaced is held");
                    assert!(old == outcome.out[..2] && old[1] <= content[1]);
                }
                12 => assert!(history[&name][1] > content[1], "only a higher run refuses"),
                _ => {}
            }
            outcome
        } else {
            let outcome = call(Call::Remove { file: file.clone(), trie: trie.clone(), name: asked, limit });
            match outcome.answer {
                120 => assert!(history.remove(&name).is_some()),
                // A merge, of which the first store is made.
                112 if outcome.out[0] == 1 => {
                    assert!(history.remove(&name).is_some());
                    merges_stopped += 1;
                }
                101 => assert!(!history.contains_key(&name)),
                _ => {}
            }
            outcome
        };
        if outcome.answer < 100 {
            assert!(outcome.file == file && outcome.trie == trie, "a refused call changed something");
        }
        file = outcome.file;
        trie = outcome.trie;
        // Stopped, or killed after its last store: the trie is discarded.
        if outcome.answer == 112 || chance.percent(10) {
            loop {
                let limit = chance.below(3) as u64;
                let outcome = call(Call::Recover { file: file.clone(), limit });
                file = outcome.file;
                match outcome.answer {
                    112 => assert_eq!(limit, 0),
                    130 | 131 => break,
                    other => panic!("recovery refused {other}"),
                }
            }
            let outcome = call(Call::Rebuild { file: file.clone(), trie: vec![chance.byte(); IMAGE] });
            assert_eq!(outcome.answer, 151, "rebuilding refused");
            trie = outcome.trie;
        }
        if step % 20 == 19 {
            for name in &names {
                let asked = Call::Lookup { file: file.clone(), trie: trie.clone(), name: name.clone() };
                let outcome = call(asked);
                match history.get(name) {
                    Some(content) => assert!(outcome.answer == 100 && outcome.out[..2] == *content),
                    None => assert_eq!(outcome.answer, 101),
                }
            }
        }
    }
    merges_stopped
}

#[cfg(test)]
mod tests {
    use crate::door::by_model;

    #[test]
    fn the_model_keeps_demand_3() {
        let stopped: usize = (0..300).map(|seed| super::tell(seed, |call| by_model(&call))).sum();
        assert!(stopped > 50, "{stopped} merges were stopped");
    }
}
