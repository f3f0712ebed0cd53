//! Random lists of calls, deterministic from their seed, each answer watched by a ledger of its
//! own and counted.
//!
//! Nothing here knows the Rust: a list is generated against any machine behind `calls::Machine`.

pub mod damage;
pub mod dump;
mod explained;
pub mod ledger;
pub mod profile;
mod profiles;
pub mod program;
pub mod random;
pub mod scene;
pub mod tally;
mod unfit;

use calls::{Answer, Call, Machine};

use ledger::Ledger;
use profile::Profile;
use scene::Scene;
use tally::Tally;

/// Every profile, in the order in which a whole run goes through them.
pub use profiles::ALL as PROFILES;

/// Runs `number` calls of `profile` and hands each with its answer to `sink`: what was counted,
/// or the call at which the ledger does not agree or the profile reaches what it never must. Each
/// take is explained before it, by a machine that can.
pub fn generate(
    machine: &mut impl Machine,
    profile: &'static Profile,
    seed: u64,
    number: u64,
    mut sink: impl FnMut(&Call, &Answer),
) -> Result<Tally, String> {
    tally::all_counted(profile.never);
    let mut scene = Scene::new(profile, seed);
    let mut ledger = Ledger::default();
    let mut tally = Tally::default();
    for _ in 0..number {
        let call = scene.call();
        let told = explained::before(machine, &call);
        let answer = machine.run(&call);
        sink(&call, &answer);
        let noted = ledger
            .saw(&call, &answer, |again| machine.run(again))
            .map_err(|why| format!("{call} => {answer}: {why}"))?;
        tally.count(&call, &answer, &noted);
        if let Some(told) = told {
            let reason = explained::after(machine, &told, &call, &answer, &noted)
                .map_err(|why| format!("{call} => {answer}, explained as {told}: {why}"))?;
            tally.explain(reason);
        }
        if let Some(what) = tally.reached(profile.never) {
            return Err(format!("{call} => {answer}: {what} must never come"));
        }
        scene.learn(&call, &answer);
    }
    Ok(tally)
}
