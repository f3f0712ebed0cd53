//! The front end that every replay program shares: the list of calls as text, the trait of a
//! machine that runs calls, and the comparison of its answers with those that a list records.
//!
//! A replay program is a machine and a few lines of `main`. The Rust stands behind this trait in
//! `tests/oracle`; any other implementation of the register links the same front end.

pub mod answer;
pub mod bytes;
pub mod call;
pub mod cut;
pub mod look;
pub mod machine;
pub mod program;
pub mod read;
pub mod replay;
pub mod settings;

pub use answer::{Answer, Reason, Verdict};
pub use call::{Call, Form, Start, Wanted, Who};
pub use look::{Length, Look, Part};
pub use machine::Machine;
pub use settings::{Limits, Settings, Window, Windows};
