//! A list that shows something, cut down to a small one that still does: first whole calls, then the numbers in those that are left.

use crate::call::Call;
use crate::read;

/// The lists that are tried at most.
const TRIES: usize = 20_000;

/// The smallest list found. `shows` runs a list and says at which of its calls it shows what is looked for.
pub fn cut(list: Vec<Call>, shows: impl Fn(&[Call]) -> Option<usize>) -> Vec<Call> {
    let mut cutting = Cutting {
        shows,
        tries: TRIES,
    };
    let mut list = cutting.shorter(list.clone()).unwrap_or(list);
    loop {
        let before = list.clone();
        list = cutting.fewer_calls(list);
        list = cutting.smaller_numbers(list);
        if list == before || cutting.tries == 0 {
            return list;
        }
    }
}

struct Cutting<F> {
    shows: F,
    tries: usize,
}

impl<F: Fn(&[Call]) -> Option<usize>> Cutting<F> {
    /// The list up to where it shows it, if it still does.
    fn shorter(&mut self, mut list: Vec<Call>) -> Option<Vec<Call>> {
        self.tries = self.tries.checked_sub(1)?;
        let at = (self.shows)(&list)?;
        list.truncate(at + 1);
        Some(list)
    }

    /// Leaves out parts of the list: halves, quarters and so on down to single calls.
    fn fewer_calls(&mut self, mut list: Vec<Call>) -> Vec<Call> {
        let mut part = list.len().div_ceil(2);
        while part > 0 {
            let mut at = 0;
            while at < list.len() {
                let mut without = list.clone();
                without.drain(at..(at + part).min(list.len()));
                match self.shorter(without) {
                    Some(shorter) => list = shorter,
                    None => at += part,
                }
            }
            part /= 2;
        }
        list
    }

    /// Puts a smaller number in place of each, call by call, as the call is written.
    fn smaller_numbers(&mut self, mut list: Vec<Call>) -> Vec<Call> {
        for at in 0..list.len() {
            let mut word = 0;
            while at < list.len() {
                let text = list[at].to_string();
                let words: Vec<&str> = text.split_whitespace().collect();
                let Some(one) = words.get(word) else {
                    break;
                };
                let smaller = smaller_words(one).into_iter().find_map(|instead| {
                    let mut words = words.clone();
                    words[word] = &instead;
                    let mut tried = list.clone();
                    tried[at] = read::line(&words.join(" ")).ok()??.call;
                    self.shorter(tried)
                });
                match smaller {
                    Some(tried) => list = tried,
                    None => word += 1,
                }
            }
        }
        list
    }
}

/// Smaller words in place of one that is a number, or a number after a letter.
fn smaller_words(word: &str) -> Vec<String> {
    let (front, digits) = match word.rsplit_once(':') {
        Some((front, digits)) => (format!("{front}:"), digits),
        None => (String::new(), word),
    };
    // The bytes of a dump may look like a number, and are too long for one.
    let digits = Some(digits).filter(|digits| digits.len() <= 20);
    let Some(number) = digits.and_then(|digits| digits.parse::<u64>().ok()) else {
        return Vec::new();
    };
    let round = |of: u64| number - number % of;
    let mut smaller = vec![
        0,
        1,
        number / 2,
        round(1_000_000),
        round(1_000),
        round(100),
        number.saturating_sub(1),
    ];
    smaller.retain(|instead| *instead < number);
    smaller.dedup();
    smaller
        .into_iter()
        .map(|instead| format!("{front}{instead}"))
        .collect()
}

#[cfg(test)]
mod tests {
    use super::cut;
    use crate::{Call, Look, read};

    fn list(text: &str) -> Vec<Call> {
        let line = |line| read::line(line).expect("a line").expect("a call").call;
        text.lines().map(line).collect()
    }

    #[test]
    fn what_plays_no_part_is_left_out() {
        // Shown by a floor of a register from 3 on, after a close.
        let shows = |list: &[Call]| {
            let closed = list.iter().position(|call| *call == Call::Close)?;
            let floor = |call: &Call| matches!(call, Call::Look(Look::Floor { register }) if *register >= 3);
            list[closed..].iter().position(floor).map(|at| closed + at)
        };
        let long = list("floor 9\nclose\nsweep 1 77\nfloor 2\nclose\nfloor 8000\nexpire 5");
        assert_eq!(cut(long, shows), list("close\nfloor 3"));
    }
}
