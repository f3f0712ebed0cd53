//! The register, with its words watched while it explains: each must be as it was.

use calls::{Answer, Call, Look, Machine};
use machine::Product;

#[derive(Default)]
pub struct Watched {
    product: Product,
    before: Vec<u64>,
}

impl Machine for Watched {
    fn run(&mut self, call: &Call) -> Answer {
        if !matches!(call, Call::Look(Look::Explain { .. })) {
            return self.product.run(call);
        }
        self.before.clear();
        self.before.extend_from_slice(self.product.words());
        let answer = self.product.run(call);
        match self.product.words() == self.before {
            true => answer,
            false => Answer::Broke,
        }
    }
}
