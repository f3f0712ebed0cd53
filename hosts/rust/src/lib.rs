//! A strike register for meter tickets: whether a ticket, a 64-bit fingerprint and a stamp in milliseconds, is new, so that none is
//! counted twice, whatever the clock did in between.
//!
//! [`Gateway`] owns its words and answers with [`Verdict`]s and [`Refusal`]s; [`raw`] has the same calls over slices that the host
//! keeps, with plain numbers, and [`abi`] over pointers. The last two are made from one table, [`entries`]. The work is done by
//! `libstrikes.a`, in which every function is proved to meet its contract. [`Keep`] has a gateway in a folder, so that it counts once
//! through stops and crashes. docs/HOST-GUIDE.md tells a gateway's day.
//!
//! Nothing here is shared between gateways: two of them may be used by two threads.

pub mod abi;
mod answers;
mod entries;
mod gateway;
mod keep;
pub mod raw;
mod settings;
pub mod words;

pub use answers::{
    Begun, Class, Deliverer, Generation, Reason, Refusal, Restored, Start, Swept, Totals, Verdict,
};
pub use gateway::{Gateway, Reading, Ticket};
pub use keep::{Found, Keep, KeepError, MINUTE};
pub use settings::{Limits, Settings, Window, Windows};
