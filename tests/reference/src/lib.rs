//! The packed finishing sheet: a second implementation, to compare the proved
//! one with. The law is the paper `01-scope.md`, cited here as "01", with the
//! requests F-1 (timed sheets), F-2 (the leaf rule), F-3 (dead heats), F-5 (the
//! order of the counts), F-9 (the notice board), F-11 (retired boats), F-13 (mending)
//! and F-14 (the federation's list) of `02-change-requests.md`, cited as "02"; every rule
//! is written as its sentence reads, not in a shortened form.
//!
//! - [`capacity`]: the clubs' and the federation's store, told by the width of counts
//! - [`coins`]: draws, from a tape of words or from given faces
//! - [`sizes`]: what the size parameter M and the length N decide
//! - [`order`]: the Van Emde Boas order of the counts
//! - [`layout`]: where entries, counts and tallies stand in the store, and the
//!   check
//! - [`rules`]: the draws of insert and delete, and the counts they lead to
//! - [`places`]: tied groups, their places and points, and retired boats
//! - [`calls`]: the eight calls on lent slices, with causes 1 to 7, 16 and 18
//! - [`timed`]: the nine calls of a timed sheet, with causes 10 and 11
//! - [`board`]: a board of a list, for both kinds of sheet
//! - [`mend`]: what mending puts in, for both kinds of sheet
//! - [`conversions`]: counts from number order to tree order and back
//! - [`frames`]: the lines of the program, with causes 8 and 9
//! - [`shares`]: histories, their courses and exact tables of shares
//! - [`timed_shares`]: the same for timed histories
//! - [`corrections`], [`timed_corrections`]: what the tests of F-10 try and compare
//! - [`spoils`]: what the tests of F-13 spoil
//! - [`random`]: a small seeded generator for tests and benchmarks

#![forbid(unsafe_code)]

pub mod board;
pub mod calls;
pub mod capacity;
pub mod coins;
pub mod conversions;
pub mod corrections;
pub mod frames;
pub mod layout;
pub mod mend;
pub mod order;
pub mod places;
pub mod random;
pub mod rules;
pub mod shares;
pub mod sizes;
pub mod spoils;
pub mod timed;
pub mod timed_corrections;
pub mod timed_shares;
