//! A list on which the two differ, cut down and printed.

use calls::{Answer, Call, Machine};

use crate::oracle::Oracle;
use crate::pair::agree;
use crate::watched::Watched;

/// The call at which a list shows a difference.
fn difference(list: &[Call]) -> Option<usize> {
    let (mut rust, mut product) = (Oracle::default(), Watched::default());
    list.iter().position(|call| {
        let (theirs, ours) = (rust.run(call), product.run(call));
        !agree(&theirs, &ours)
    })
}

pub fn differs(list: &[Call]) -> bool {
    difference(list).is_some()
}

/// Prints the smallest list found, each call with the Rust's answer, and the register's beside the one that differs.
pub fn print(list: &[Call]) {
    let list = calls::cut::cut(list.to_vec(), difference);
    let (mut rust, mut product) = (Oracle::default(), Watched::default());
    for call in &list {
        let (theirs, ours): (Answer, Answer) = (rust.run(call), product.run(call));
        match agree(&theirs, &ours) {
            true => println!("{call} => {theirs}"),
            false => println!("{call} => {theirs} # the register answers {ours}"),
        }
    }
}
