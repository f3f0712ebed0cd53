//! What a call left, held against what is due.

use calls::Settings;
use soundness::{Ask, Due, batch_verdict, broken, reason, refusal, settings_of, view};

use crate::guard::Against;
use crate::input::{Entry, Input, Output};
use crate::lent::{After, BEFORE, Lent};

/// The largest that an out number can be, by its name.
fn most(input: &Input, out: &str) -> u64 {
    match out {
        "verdict" => 5,
        "rule" => 15,
        "class" => 2,
        "held" | "begun" | "whole" | "present" | "pending" | "found" => 1,
        "read" => input.bytes.len() as u64,
        "written" => input.output_length() as u64,
        _ => u64::MAX,
    }
}

/// The refusal that was due, or what is wrong.
pub fn judge(lent: &mut Lent, input: &Input, against: Against) -> Result<Due, String> {
    let due = refusal(&input.settings, &input.call());
    let after = lent.run(input, against);
    if after.number != due.number() {
        return Err(format!(
            "{} is due ({due:?}), but the register answers {}",
            due.number(),
            after.number
        ));
    }
    if !after.untouched {
        return Err("memory that is only read, or around what was lent, was altered".into());
    }
    match due {
        Due::No => went_through(input, &after)?,
        _ => refused(input, &after)?,
    }
    Ok(due)
}

fn refused(input: &Input, after: &After) -> Result<(), String> {
    let kept = after.words == input.words && kept_past(0, input, after) && after.numbers == BEFORE;
    if kept {
        Ok(())
    } else {
        Err(format!(
            "refused with {}, but memory was altered",
            after.number
        ))
    }
}

/// Whether outputs are as they were past what was written into the one that the call is lent.
fn kept_past(written: usize, input: &Input, after: &After) -> bool {
    let (bytes, words) = match input.entry.output() {
        Some(Output::Bytes) => (written, 0),
        Some(Output::Words) => (0, written),
        None => (0, 0),
    };
    after.out[bytes..] == input.out[bytes..] && after.view[words..] == input.view[words..]
}

fn went_through(input: &Input, after: &After) -> Result<(), String> {
    let settings = settings_of(&input.settings).expect("not refused");
    let needed = settings.words() as usize;
    let outs = input.entry.outs();
    if after.numbers[outs.len()..] != BEFORE[outs.len()..] {
        return Err("a number past those that it tells was altered".into());
    }
    let mut written = 0;
    for (out, number) in outs.iter().zip(after.numbers) {
        if number > most(input, out) {
            return Err(format!("{out} is {number}"));
        }
        if *out == "written" {
            written = number as usize;
        }
    }
    if !kept_past(written, input, after) {
        return Err("output past what was written was altered".into());
    }
    if input.entry.output() == Some(Output::Words) {
        let due = view(&settings, &input.call());
        if due.as_deref() != Some(&after.view[..written]) {
            return Err(format!(
                "{due:?} is due, but {:?} is written",
                &after.view[..written]
            ));
        }
    }
    if input.entry == Entry::explain {
        let due = reason(&settings, &input.words, &input.ask());
        if after.numbers[..outs.len()] != [due.rule, due.class, due.verdict] {
            return Err(format!("{due:?} is due, but {:?} is told", after.numbers));
        }
    }
    if input.entry == Entry::stamp_for {
        stamp_told(&settings, input, after.numbers[0] == 1, after.numbers[1])?;
    }
    if input.entry.only_reads() {
        let same = after.words == input.words;
        return if same {
            Ok(())
        } else {
            Err("a call that only reads altered words".into())
        };
    }
    if after.words[needed..] != input.words[needed..] {
        return Err("words past those needed were altered".into());
    }
    match broken(&settings, &after.words) {
        None => Ok(()),
        Some(rule) => Err(format!("it left words that are not sound: {rule:?}")),
    }
}

/// The stamp that is told gives the wanted verdict; where none is told it is 0; and the input's own stamp gives it only if it is no smaller.
/// That no other is smaller is for the proofs and tests/stamps.
fn stamp_told(settings: &Settings, input: &Input, found: bool, stamp: u64) -> Result<(), String> {
    let (own, wanted) = (input.ask(), input.numbers.wanted);
    let gives = |stamp| batch_verdict(settings, &input.words, &Ask { stamp, ..own }) == wanted;
    match (found, stamp) {
        (true, _) if !gives(stamp) => Err(format!("stamp {stamp} does not give verdict {wanted}")),
        (false, 1..) => Err(format!("none is found, and stamp is {stamp}")),
        _ if gives(own.stamp) && (!found || own.stamp < stamp) => {
            Err(format!("stamp {} gives verdict {wanted}", own.stamp))
        }
        _ => Ok(()),
    }
}
