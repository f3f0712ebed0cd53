//! A question that is answered otherwise, cut down and printed as a list of calls (docs/CALLS.md): the question, and the take that its
//! answer does not agree with.

use calls::call::Ticket;
use calls::{Answer, Call, Form, Look, Machine, Start, Verdict, Wanted, Who};
use machine::Product;
use strikes::raw::Ask;

use crate::Wrong;
use crate::question::Question;

pub fn print(question: &Question, wrong: &Wrong) {
    let list = calls::cut::cut(list_of(question, wrong), disagreeing);
    let mut product = Product::default();
    for call in &list {
        println!("{call} => {}", product.run(call));
    }
}

fn list_of(question: &Question, wrong: &Wrong) -> Vec<Call> {
    let settings = question.settings.clone();
    let open = Call::Open {
        starts: vec![Start::Empty; settings.windows.len()],
        settings,
    };
    let mut product = Product::default();
    product.run(&open);
    let words = question.words.iter().zip(product.words()).enumerate();
    let pokes = words.filter(|(_, (word, opened))| word != opened);
    let pokes = pokes.map(|(at, (word, _))| Call::Poke {
        at: at as u64,
        value: *word,
    });
    let list = [open].into_iter().chain(pokes);
    list.chain(asked(&question.ask, wrong)).collect()
}

/// The question, and the take.
fn asked(ask: &Ask, wrong: &Wrong) -> [Call; 2] {
    let Ask {
        register,
        fingerprint,
        reading,
        flag,
        kind,
        number,
        ..
    } = *ask;
    let (who, wanted) = (Who::Kind(kind, number), Wanted::Verdict(wrong.wanted));
    let stamp_for = Look::StampFor {
        register,
        fingerprint,
        reading,
        flag,
        who,
        wanted,
    };
    let ticket = Ticket {
        register,
        fingerprint,
        stamp: wrong.stamp,
        reading,
        flag,
        who,
    };
    let form = Form::TakeBatch;
    [Call::Look(stamp_for), Call::Ask { form, ticket }]
}

/// The place of a take with the verdict that the question before it wants, at a smaller stamp than is told; or with another verdict, at the
/// stamp that is told.
fn disagreeing(list: &[Call]) -> Option<usize> {
    let mut product = Product::default();
    let answers: Vec<Answer> = list.iter().map(|call| product.run(call)).collect();
    let pairs = list.windows(2).zip(answers.windows(2));
    let found = pairs.into_iter().position(|(calls, answers)| {
        let (
            [Call::Look(look), Call::Ask { ticket, .. }],
            [Answer::Stamp(told), Answer::Verdict(said)],
        ) = (calls, answers)
        else {
            return false;
        };
        let wanted = wanted_with(look, ticket);
        let smaller = told.is_none_or(|told| ticket.stamp < told);
        match wanted == Some(*said) {
            true => smaller,
            false => wanted.is_some() && *told == Some(ticket.stamp),
        }
    });
    found.map(|at| at + 1)
}

/// The verdict that is wanted, where the ticket is the one that is asked about.
fn wanted_with(look: &Look, ticket: &Ticket) -> Option<Verdict> {
    match *look {
        Look::StampFor {
            register,
            fingerprint,
            reading,
            flag,
            who,
            wanted,
        } => {
            let stamp = ticket.stamp;
            let asked = Ticket {
                register,
                fingerprint,
                stamp,
                reading,
                flag,
                who,
            };
            wanted.listed().filter(|_| asked == *ticket)
        }
        _ => None,
    }
}
