//! What runs calls.

use crate::answer::Answer;
use crate::call::Call;

/// An implementation of the register behind its calls. Before the first opening that went through
/// there are no settings to bring, so it answers [`Answer::Apart`] to everything but openings.
pub trait Machine {
    fn run(&mut self, call: &Call) -> Answer;
}

impl<M: Machine + ?Sized> Machine for &mut M {
    fn run(&mut self, call: &Call) -> Answer {
        (**self).run(call)
    }
}
