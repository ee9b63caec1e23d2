//! Before anything is measured: all sides give the same answers and leave the
//! same stores, those of `tests/reference`, on sheets and on damaged stores.
//! Where they do not, the program ends.

use crate::sides::{Plain, Proved, Reference, Returned, Side, Store, C};
use crate::{Arguments, TAPE};
use reference::layout::{Node, Shape, COUNTS, SLOTS, TALLIES};
use reference::places::{RETIRED, TIED};
use reference::random::SplitMix64;
use reference::sizes::{candidate_positions, MAX_ENTRIES};

/// Stores that are compared, and how many of the grown sheets they are made of.
const TRIALS: usize = 6000;
const SHEETS: usize = 64;
/// What stands in an output before a read.
const UNREAD: u64 = 0x5555_5555_5555_5555;

/// The answers, outputs and stores of all calls on one side.
#[derive(Debug, PartialEq)]
struct Given {
    answers: Vec<Returned>,
    outputs: Vec<Vec<u64>>,
    stores: Vec<Store>,
}

/// What the calls of one measurement on stores of n entries give.
fn measured<S: Side>(n: usize, stores: &[Store], arguments: &[Arguments]) -> Given {
    let mut given = Given { answers: Vec::new(), outputs: Vec::new(), stores: stores.to_vec() };
    let count = n.min(64);
    for round in arguments.chunks_exact(2 * stores.len()) {
        let (inserts, deletes) = round.split_at(stores.len());
        for (store, (i, d)) in given.stores.iter_mut().zip(inserts.iter().zip(deletes)) {
            given.answers.push(S::insert(store, i.rank(n + 1), i.entry, &i.words));
            given.answers.push(S::delete(store, d.rank(n + 1), &d.words));
            given.answers.push(S::check(store));
            given.answers.push(S::place(store, i.rank(n)));
            let (first, mut output) = (i.rank(n - count + 1), vec![UNREAD; 64]);
            given.answers.push(S::read(store, first, first + count - 1, &mut output));
            given.outputs.push(output);
        }
    }
    given
}

/// The measured sides give the same for these stores and arguments.
pub fn answers_are_equal(n: usize, stores: &[Store], arguments: &[Arguments]) {
    let proved = measured::<Proved>(n, stores, arguments);
    assert!(proved == measured::<C>(n, stores, arguments), "the C side gives the answers of the proved library at N = {n}");
    assert!(proved == measured::<Plain>(n, stores, arguments), "the Rust side gives the answers of the proved library at N = {n}");
}

/// The arguments of all calls on one store.
struct Asked {
    ranks: [usize; 3],
    entry: u64,
    output: usize,
    tape: Vec<u32>,
}

impl Asked {
    fn new(random: &mut SplitMix64, n: usize) -> Asked {
        let ranks = [0; 3].map(|_| random.below(n + 2));
        let mut tape = vec![0; if random.below(8) == 0 { random.below(6) } else { TAPE }];
        random.fill(&mut tape);
        // The words that a draw passes over are rare: more of them here.
        for word in &mut tape {
            *word |= if random.below(8) == 0 { u32::MAX << 8 } else { 0 };
        }
        Asked {
            ranks,
            entry: if random.below(16) == 0 { 0 } else { random.entry() },
            output: if random.below(4) == 0 { random.below(64) } else { MAX_ENTRIES },
            tape,
        }
    }
}

/// What each call gives on a copy of its own.
fn asked<S: Side>(store: &Store, asked: &Asked) -> Given {
    let mut stores = vec![store.clone(), store.clone()];
    let mut output = vec![UNREAD; asked.output];
    let [rank, first, last] = asked.ranks;
    let answers = vec![
        S::check(store),
        S::place(store, rank),
        S::read(store, first, last, &mut output),
        S::insert(&mut stores[0], rank, asked.entry, &asked.tape),
        S::delete(&mut stores[1], rank, &asked.tape),
    ];
    Given { answers, outputs: vec![output], stores }
}

/// Sheets of many lengths, grown and shrunk by the reference.
fn sheets(random: &mut SplitMix64) -> Vec<Store> {
    let (mut store, mut sheets) = (Store::empty(), vec![Store::empty()]);
    for n in 0..MAX_ENTRIES {
        let a = Arguments::new(random);
        assert_eq!(Reference::insert(&mut store, a.rank(n + 1), a.entry, &a.words)[0], 0);
        if n < 8 || n % (2 * MAX_ENTRIES / SHEETS) == 0 || n + 1 == MAX_ENTRIES {
            sheets.push(store.clone());
        }
    }
    for n in (1..=MAX_ENTRIES).rev() {
        let a = Arguments::new(random);
        assert_eq!(Reference::delete(&mut store, a.rank(n), &a.words)[0], 0);
        if n % (2 * MAX_ENTRIES / SHEETS) == 0 {
            sheets.push(store.clone());
        }
    }
    sheets
}

/// A store that is laid out by the rules, but that some range may be split
/// right beside its candidates.
fn laid_out(random: &mut SplitMix64) -> Store {
    let n = 1 + random.below(MAX_ENTRIES);
    let shape = Shape::of(n + random.below(n));
    let (mut slots, mut counts) = ([0; SLOTS], [0; COUNTS]);
    counts[0] = shape.m as u16;
    shape.set_count(&mut counts, Node::ROOT, n);
    for depth in 0..shape.height {
        for node in Node::all_at(depth) {
            let n = shape.count(&counts, node);
            let c = shape.candidates(depth).min(n);
            let candidates = candidate_positions(n, c).expect("as many as there are entries");
            let left = match random.below(256) {
                0 => candidates.start.saturating_sub(1),
                1 => candidates.end.min(n),
                _ => candidates.start + random.below(c.max(1)),
            };
            shape.set_count(&mut counts, node.left(), left);
            shape.set_count(&mut counts, node.right(), n - left);
        }
    }
    let list: Vec<u64> = (0..n).map(|_| random.entry()).collect();
    shape.lay_out(Node::ROOT, &mut slots, &counts, &list);
    Store { slots: slots.to_vec(), counts: counts.to_vec(), tallies: shape.tallies(&slots).to_vec() }
}

/// One damage to a store, most often where entries, counts and tallies stand.
fn damage(store: &mut Store, random: &mut SplitMix64) {
    let Store { slots, counts, tallies } = store;
    let held = 3 * usize::from(counts[0]) + 2;
    let (used, ranges) = (held.min(SLOTS), (held / 8 + 2).min(COUNTS));
    let (slot, other) = (random.below(used), random.below(used));
    let (count, near) = (random.below(ranges), random.below(ranges));
    match random.below(17) {
        0 => slots[slot] = random.entry(),
        1 => slots[slot] = 0,
        2 => slots[slot] = 1 << random.below(64),
        3 => slots.swap(slot, other),
        4 => slots.swap(slot, (slot + 1) % SLOTS),
        5 => slots[random.below(SLOTS)] |= 1 << random.below(64),
        6 => counts[count] = counts[count].wrapping_add(1),
        7 => counts[count] = counts[count].wrapping_sub(1),
        8 => counts[count] = random.next_u32() as u16,
        9 => counts[random.below(COUNTS)] ^= 1 << random.below(16),
        10 => counts.swap(count, near),
        11 => tallies[count] = tallies[count].wrapping_add(1),
        12 => tallies[count] = tallies[count].wrapping_sub(1),
        13 => tallies[random.below(TALLIES)] ^= 1 << random.below(16),
        14 => tallies.swap(count, near),
        15 => slots[slot] ^= RETIRED,
        _ => counts[0] = random.below(2 * MAX_ENTRIES + 2) as u16,
    }
}

/// Ties all boats but a few.
fn tie(store: &mut Store, random: &mut SplitMix64) {
    for slot in store.slots.iter_mut().filter(|slot| **slot != 0) {
        *slot |= if random.below(200) == 0 { 0 } else { TIED };
    }
}

/// Takes an element from the slots, the counts or the tallies, or puts one behind
/// them.
fn other_lengths(store: &mut Store, random: &mut SplitMix64) {
    match random.below(6) {
        0 => drop(store.slots.pop()),
        1 => drop(store.counts.pop()),
        2 => drop(store.tallies.pop()),
        3 => store.slots.push(0),
        4 => store.counts.push(0),
        _ => store.tallies.push(0),
    }
}

/// Every side gives what the reference gives, on sheets and damaged stores.
pub fn with_reference() {
    let mut random = SplitMix64::new(2);
    let sheets = sheets(&mut random);
    let mut accepted = 0;
    for trial in 0..TRIALS {
        let mut store = if trial % 4 == 0 { laid_out(&mut random) } else { sheets[random.below(sheets.len())].clone() };
        let n = usize::from(store.counts[1]);
        if trial % 5 == 0 {
            tie(&mut store, &mut random);
        }
        for _ in 0..random.below(3) {
            damage(&mut store, &mut random);
        }
        if trial % 64 == 0 {
            other_lengths(&mut store, &mut random);
        }
        let arguments = Asked::new(&mut random, n);
        let expected = asked::<Reference>(&store, &arguments);
        accepted += usize::from(expected.answers[0][0] == 0);
        let sides = [("proved library", asked::<Proved>(&store, &arguments)), ("C side", asked::<C>(&store, &arguments)), ("Rust side", asked::<Plain>(&store, &arguments))];
        for (side, given) in sides {
            assert!(given == expected, "the {side} differs from the reference at trial {trial}: {:?}, not {:?}", given.answers, expected.answers);
        }
    }
    println!("all sides equal to tests/reference on {TRIALS} stores, {accepted} of them sheets");
}
