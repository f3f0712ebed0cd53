//! The smallest stamp for each verdict, printed so that a person can read it, and the takes that bring the verdicts about.

use std::process::ExitCode;

use calls::call::Ticket as Line;
use strikes::{Gateway, Refusal, Verdict};

use crate::explain::{brought, gateway_over};
use crate::why::why;
use crate::{saved, tell};

/// An order in which no take spoils the next: New alone alters more than the sweep does, and Full is met after it all the same.
const IN_TURN: [Verdict; 6] = [
    Verdict::Unjudged,
    Verdict::Duplicate,
    Verdict::Late,
    Verdict::Ahead,
    Verdict::New,
    Verdict::Full,
];

/// What brings a verdict about: the ticket, and the rule that will give the verdict, with the numbers that decide.
struct Provoked {
    verdict: Verdict,
    by: Option<(Line, String)>,
}

/// By words that a host has kept. The parts are as a list has them: REG FP READING FLAG WHO.
pub fn of_file(file: &str, parts: [&str; 5]) -> ExitCode {
    let [register, fingerprint, reading, flag, who] = parts;
    let take = format!("take_batch {register} {fingerprint} 0 {reading} {flag} {who}");
    let line = match calls::read::line(&take) {
        Ok(line) => line.and_then(|line| line.call.ticket()),
        Err(why) => return saved::failed(&why, 2),
    };
    let provoked = saved::read(file).and_then(|words| {
        saved::view(&words)?;
        let line = line.expect("a ticket is taken");
        provoke(&words, &line).map_err(|refusal| saved::failed(&format!("refused: {refusal}"), 1))
    });
    provoked.map_or_else(|status| status, |all| tell(&text_of(&all)))
}

fn provoke(words: &[u64], line: &Line) -> Result<Vec<Provoked>, Refusal> {
    let gateway = gateway_over(words)?;
    let one = |verdict| {
        Ok(Provoked {
            verdict,
            by: provoked_by(&gateway, line, verdict)?,
        })
    };
    Verdict::ALL.into_iter().map(one).collect()
}

fn provoked_by(
    gateway: &Gateway,
    line: &Line,
    verdict: Verdict,
) -> Result<Option<(Line, String)>, Refusal> {
    let asked = brought(line)?;
    let stamp = gateway.stamp_for(
        asked.register,
        asked.ticket.fingerprint,
        asked.now,
        asked.who,
        verdict,
    )?;
    let Some(stamp) = stamp else {
        return Ok(None);
    };
    let line = Line { stamp, ..*line };
    let why = why(gateway, &brought(&line)?)?;
    let rule = match why.numbers {
        Some(numbers) => format!("{}: {numbers}", why.reason),
        None => why.reason.to_string(),
    };
    Ok(Some((line, rule)))
}

/// A table of all verdicts, and the takes in an order in which none spoils the next.
fn text_of(all: &[Provoked]) -> String {
    let mut lines = vec![format!("{:10} {:>20}  rule", "verdict", "smallest stamp")];
    for Provoked { verdict, by } in all {
        let verdict = verdict.to_string();
        lines.push(match by {
            Some((line, rule)) => format!("{verdict:10} {:>20}  {rule}", line.stamp),
            None => format!("{verdict:10} {:>20}", "none"),
        });
    }
    lines.push(String::new());
    for next in IN_TURN {
        let found = all.iter().filter(|one| one.verdict == next);
        lines.extend(found.flat_map(|one| &one.by).map(|(line, _)| {
            let said = next.to_string().to_lowercase();
            format!("take_batch {line} => {said}")
        }));
    }
    lines.push(String::new());
    lines.join("\n")
}
