//! Reads, places and boards of a plain and of a timed sheet of the same list.

use crate::{some_size, FULL, LENGTHS};
use agreement::boards::board;
use agreement::histories::Bits;
use agreement::sheets::SheetsOf;
use agreement::stores::rising;
use agreement::{say, timed, Both, Call, StoreOf};
use reference::places::{RETIRED, TIED};
use reference::random::SplitMix64;

type Sheets = SheetsOf<u32>;

/// What stands in an output before a call: no entry of a sheet here.
const HELD: u64 = 5;

/// Reads of ranks first to last with this room, on a plain and on a timed sheet.
fn reads(plain: &mut Both<StoreOf<u32>>, timed: &mut Both<timed::StoreOf<u32>>, [first, last, room]: [usize; 3]) -> (u64, Vec<u64>) {
    let output = vec![HELD; room];
    let returned = plain.call_with_output(Call::Read { first, last, output: output.clone() });
    assert_eq!(timed.call_with_output(timed::Call::Read { first, last, output }), returned);
    let ([number, entries, ..], output) = returned;
    assert_eq!(entries, if number == 0 { (last - first + 1) as u64 } else { 0 });
    (number, output)
}

/// The whole list, parts of it and single ranks, with an output one too short, just long enough and
/// longer; ranks beyond the list, some of which have small lower 16 or 32 bits.
#[test]
fn reads_of_any_ranks() {
    let mut random = SplitMix64::new(8200);
    for n in LENGTHS.into_iter().filter(|n| *n > 0) {
        let list = rising(n, Bits::SOME, &mut random);
        let m = some_size(n, &mut random);
        let store = timed::StoreOf::<u32>::of_size(&list, m, &mut random);
        let (mut plain, mut timed) = (Both::new(8200, store.plain()), Both::new(8200, store));
        let mut pairs = vec![(0, 0), (0, n - 1), (n - 1, n - 1)];
        for _ in 0..6 {
            let first = random.below(n);
            pairs.push((first, first + random.below(n - first)));
            pairs.push((first, (first + random.below(90)).min(n - 1)));
        }
        for (first, last) in pairs {
            let entries = last - first + 1;
            let short = reads(&mut plain, &mut timed, [first, last, entries - 1]);
            assert_eq!(short, (6, vec![HELD; entries - 1]), "N {n}");
            for rest in [0, 3] {
                let (number, output) = reads(&mut plain, &mut timed, [first, last, entries + rest]);
                assert!(number == 0 && output == [&list[first..=last], &vec![HELD; rest]].concat(), "N {n}");
            }
        }
        for beyond in [n, n + 1, n + (1 << 16), 1 << 32, usize::MAX] {
            for (first, last) in [(0, beyond), (beyond, beyond), (beyond, 0)] {
                assert_eq!(reads(&mut plain, &mut timed, [first, last, 3]), (4, vec![HELD; 3]), "N {n}");
            }
            assert_eq!(plain.call(Call::Place { rank: beyond }), [4, 0, 0, 0], "N {n}");
            assert_eq!(timed.call(timed::Call::Place { rank: beyond }), [4, 0, 0, 0], "N {n}");
        }
    }
}

/// Ranks of a list: the first and the last ones, and some between.
fn some_ranks(n: usize, random: &mut SplitMix64) -> Vec<usize> {
    let between: Vec<usize> = (0..30).map(|_| random.below(n)).collect();
    let fixed = [0, 1, 63, 64, 1023, 1024, n - 1].into_iter().filter(|rank| *rank < n);
    fixed.chain(between).collect()
}

/// Groups of some boats, of many and of nearly all, with few and with many retired boats.
#[test]
fn places_of_groups() {
    let mut random = SplitMix64::new(8210);
    let (mut tied, mut retired, mut made) = (0, 0, 0);
    for n in LENGTHS.into_iter().filter(|n| *n > 0) {
        for bits in [Bits::new(2, 1), Bits::SOME, Bits::new(15, 14)] {
            let (list, m) = (rising(n, bits, &mut random), some_size(n, &mut random));
            let mut sheets = Sheets::new(8210, &list, m, &mut random);
            for rank in some_ranks(n, &mut random) {
                let [number, place, _, t] = sheets.place(rank);
                assert_eq!((number, place == 0), (0, list[rank] & RETIRED != 0), "N {n} M {m} rank {rank}");
                tied += u64::from(t > 1);
                retired += u64::from(place == 0);
            }
            made += sheets.made();
        }
    }
    assert!(tied > 100 && retired > 100, "{tied} tied, {retired} retired");
    say(&format!("{made} calls"));
}

/// All boats of the longest list in one group, whose sum does not fit into 31 bits; with every second
/// one retired; and none of them tied.
#[test]
fn places_on_the_longest_list() {
    let mut random = SplitMix64::new(8211);
    let keys: Vec<u64> = (1..=FULL as u64).map(|k| 10 * k).collect();
    let with = |bits: fn(usize) -> u64| keys.iter().enumerate().map(|(rank, key)| key | bits(rank)).collect::<Vec<u64>>();
    let all = with(|_| TIED);
    let half = with(|rank| TIED | if rank % 2 == 0 { 0 } else { RETIRED });
    let none = with(|_| 0);
    for m in [FULL, 100_000, 2 * FULL - 1] {
        let [mut all, mut half, mut none] = [&all, &half, &none].map(|list| Sheets::new(8211, list, m, &mut random));
        for rank in some_ranks(FULL, &mut random) {
            let alone = rank as u64 + 1;
            assert_eq!(all.place(rank), [0, 1, 2_147_516_416, 65_536]);
            let expected = if rank % 2 == 0 { [0, 1, 536_887_296, 32_768] } else { [0, 0, 0, 1] };
            assert_eq!(half.place(rank), expected);
            assert_eq!(none.place(rank), [0, alone, alone, 1]);
        }
    }
}

/// Boards accepted and refused; each word of an accepted one is the entry of its rank.
#[test]
fn boards() {
    let mut random = SplitMix64::new(8220);
    let (mut met, mut made) = ([0; 17], 0);
    for n in LENGTHS {
        let (list, m) = (rising(n, Bits::SOME, &mut random), some_size(n, &mut random));
        let mut sheets = Sheets::new(8220, &list, m, &mut random);
        for _ in 0..40 {
            let (ranks, before) = board(&mut random, n);
            let (returned, output) = sheets.board(&ranks, &before);
            met[returned[0] as usize] += 1;
            let mut expected = before;
            if returned[0] == 0 {
                assert_eq!(returned[1], ranks.len() as u64);
                for (word, rank) in expected.iter_mut().zip(&ranks) {
                    *word = list[*rank as usize];
                }
            }
            assert_eq!(output, expected, "N {n} M {m}");
        }
        made += sheets.made();
    }
    assert!([0, 4, 6, 16].iter().all(|number| met[*number] >= 10), "{met:?}");
    say(&format!("{made} calls"));
}

/// 64 ranks from one end of the longest list to the other, and 65; one that is too large by one and by
/// more, or of which the lower 16 or 32 bits are small.
#[test]
fn boards_of_64_ranks() {
    let mut random = SplitMix64::new(8221);
    for n in [64, 1025, 4096, FULL] {
        let (list, m) = (rising(n, Bits::SOME, &mut random), some_size(n, &mut random));
        let mut sheets = Sheets::new(8221, &list, m, &mut random);
        let mut ranks: Vec<u64> = (0..64).map(|k| k * (n as u64 - 1) / 63).collect();
        let entries: Vec<u64> = ranks.iter().map(|rank| list[*rank as usize]).collect();
        assert_eq!(sheets.board(&ranks, &[HELD; 65]), ([0, 64, 0, 0], [&entries[..], &[HELD]].concat()));
        for beyond in [n as u64, n as u64 + 1, n as u64 + (1 << 16), 1 << 32, (1 << 32) + 1, u64::MAX] {
            ranks[63] = beyond;
            assert_eq!(sheets.board(&ranks, &[HELD; 65]), ([4, 0, 0, 0], vec![HELD; 65]), "{beyond}");
            ranks[62] = beyond;
            ranks[63] = n as u64 - 1;
            assert_eq!(sheets.board(&ranks, &[HELD; 65]), ([16, 0, 0, 0], vec![HELD; 65]), "{beyond}");
            ranks[62] = n as u64 - 1;
        }
        assert_eq!(sheets.board(&[0; 65], &[HELD; 65]), ([16, 0, 0, 0], vec![HELD; 65]));
    }
}
