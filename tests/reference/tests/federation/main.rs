//! The federation's sheets (02, F-14): the numbers of its store, each call and each cause on
//! it, histories and shares, plain and timed.

#[path = "../common/mod.rs"]
mod common;

mod histories;
mod plain;
mod shares;
mod sizes;
mod timed;
