//! What a machine says of a take before it is made, held against the take: its verdict, and the rule that gave it by the ledger.

use calls::call::Ticket;
use calls::{Answer, Call, Form, Look, Machine, Reason, Verdict};

use crate::ledger::{Noted, must};

/// What the machine says of a take that is about to be made; none where it has no rules to tell.
pub fn before(machine: &mut impl Machine, call: &Call) -> Option<Answer> {
    match call {
        Call::Ask { form, ticket } if form.takes() => {
            Some(machine.run(&ticket.explain())).filter(|told| *told != Answer::Apart)
        }
        _ => None,
    }
}

/// The rule that was told before a take and gave its verdict; none where both calls are refused alike.
pub fn after(
    machine: &mut impl Machine,
    told: &Answer,
    call: &Call,
    answer: &Answer,
    noted: &Noted,
) -> Result<Option<Reason>, String> {
    let (Call::Ask { form, ticket }, Answer::Because(verdict, reason)) = (call, told) else {
        return must(told == answer, || "not as the take".into()).map(|()| None);
    };
    let said = Answer::Verdict(said(*form, *verdict, noted));
    must(*answer == said, || format!("{said} would be the verdict"))?;
    let due = due(machine, ticket, noted);
    must(*reason == due, || format!("{due} is the rule"))?;
    Ok(Some(*reason))
}

/// The verdict of a form: the batch form says Ahead for Late where the stamp is past the window's front.
fn said(form: Form, verdict: Verdict, noted: &Noted) -> Verdict {
    let past_front = noted.outside == Some(Reason::Ahead);
    match verdict {
        Verdict::Late if form == Form::TakeBatch && past_front => Verdict::Ahead,
        _ => verdict,
    }
}

/// The rule that gave a take's verdict. The ledger keeps no floor: of a ticket outside its window the machine is asked for it, which is
/// then as the take's sweep left it.
fn due(machine: &mut impl Machine, ticket: &Ticket, noted: &Noted) -> Reason {
    match (noted.reason, noted.outside) {
        (Some(reason), _) => reason,
        (None, Some(side)) if !below_floor(machine, ticket) => side,
        _ => Reason::Floor,
    }
}

fn below_floor(machine: &mut impl Machine, ticket: &Ticket) -> bool {
    let register = ticket.register;
    match machine.run(&Call::Look(Look::Floor { register })) {
        Answer::Perhaps(floor) => floor.is_some_and(|floor| ticket.stamp <= floor),
        _ => false,
    }
}
