//! All calls on one store, for causes that most of them meet. Mending stands apart.

use super::*;

/// What seven calls return on these slices with these arguments; only clear
/// may change them, and it comes last.
pub fn all_calls<T: Number>(
    slots: &mut [u64],
    counts: &mut [T],
    tallies: &mut [T],
    rank: usize,
    entry: u64,
) -> [u8; 7] {
    let mut output = [0x55; 2];
    let answers = [
        calls::insert(slots, counts, tallies, rank, entry, &[]),
        calls::delete(slots, counts, tallies, rank, &[]),
        calls::read(slots, counts, tallies, rank, rank + 5, &mut output),
        calls::board(slots, counts, tallies, &[rank as u64, 0], &mut output),
        calls::place(slots, counts, tallies, rank),
        calls::check(slots, counts, tallies),
        calls::clear(slots, counts, tallies),
    ];
    for answer in answers {
        if answer.number() != 0 {
            assert_eq!(answer.values(), [0, 0, 0]);
        }
    }
    assert_eq!(output, [0x55; 2]);
    answers.map(Answer::number)
}

/// What eight calls return on these slices with these arguments: insert,
/// delete, find, read, board, place, check, clear. Only clear may change them.
pub fn all_timed_calls<T: Number>(
    (slots, counts, tallies, balance): (&mut [u64], &mut [T], &mut [T], &mut [u64]),
    rank: usize,
    entry: u64,
) -> [u8; 8] {
    let before = (slots.to_vec(), counts.to_vec());
    let then = (tallies.to_vec(), balance.to_vec());
    let (last, ranks, mut output) = (rank + 5, [rank as u64, 0], [0x55; 2]);
    let answers = [
        timed::insert(slots, counts, tallies, balance, entry, &[]),
        timed::delete(slots, counts, tallies, balance, rank, &[]),
        timed::find(slots, counts, tallies, balance, entry),
        timed::read(slots, counts, tallies, balance, rank, last, &mut output),
        timed::board(slots, counts, tallies, balance, &ranks, &mut output),
        timed::place(slots, counts, tallies, balance, rank),
        timed::check(slots, counts, tallies, balance),
    ];
    assert!(before == (slots.to_vec(), counts.to_vec()));
    assert!(then == (tallies.to_vec(), balance.to_vec()));
    assert_eq!(output, [0x55; 2]);
    let clear = timed::clear(slots, counts, tallies, balance);
    for answer in answers.into_iter().chain([clear]) {
        assert!(answer.number() == 0 || answer.values() == [0, 0, 0]);
    }
    let [a, b, c, d, e, f, g] = answers.map(Answer::number);
    [a, b, c, d, e, f, g, clear.number()]
}
