//! What is remembered of one meter, or of any deliverer, printed so that a person can read it.

use std::process::ExitCode;

use calls::{Answer, Call, Look, Machine, Who};
use machine::Product;

use crate::list::left_by_list;
use crate::tell;

/// Runs the list on the standard input and prints the pairs and entries that it leaves to `who`.
pub fn of_list(who: Who) -> ExitCode {
    left_by_list(|product| of_product(product, who))
}

fn of_product(product: &mut Product, who: Who) -> ExitCode {
    let view = Call::Look(Look::ViewDeliverer { who, length: None });
    let why = match product.run(&view) {
        Answer::Viewed(words) => return tell(&text_of(who, &words)),
        Answer::Apart => "the list opens nothing".into(),
        refused => format!("refused: {refused}"),
    };
    eprintln!("strikes: {why}");
    ExitCode::FAILURE
}

/// Of a view's words, the entries first and then a line for each pair.
fn text_of(who: Who, words: &[u64]) -> String {
    let (pairs, entries) = words.as_chunks();
    let mut lines = vec![format!(
        "{who}: {} entries in {} seconds",
        entries[0],
        pairs.len()
    )];
    let line = |[second, count]: &[u64; 2]| format!("  second {second}: {count}");
    lines.extend(pairs.iter().map(line));
    lines.push(String::new());
    lines.join("\n")
}
