//! Stand-in for what a relay keeps on disk. No register here keeps anything, so the types have no
//! values and their functions no code to run.

use std::io;
use std::sync::Arc;

use tally_wire::clocks::Judged;

pub const LOG_COMPACT_RECORDS: u64 = 0;

pub enum Durable {
    Off,
    Fresh,
    Dir(Arc<StateDir>),
}

#[derive(Debug)]
pub enum Lease {}

pub struct LeaseStart {
    pub floor_ms: u64,
    pub ahead: Option<u64>,
}

impl Lease {
    pub fn begin(&self, _now: Judged, _fallback: u64) -> LeaseStart {
        match *self {}
    }

    pub fn cover(&self, _signed_ms: u64) -> io::Result<()> {
        match *self {}
    }
}

pub enum Log {}

impl Log {
    pub fn records(&self) -> u64 {
        match *self {}
    }

    pub fn is_stale(&self) -> bool {
        match *self {}
    }

    pub fn fold(&mut self, _dump: &[u8]) -> io::Result<()> {
        match *self {}
    }

    pub fn append(&mut self, _class: u8, _signed_ms: u64, _fp: u64) -> io::Result<()> {
        match *self {}
    }
}

pub struct State {
    pub dump: Vec<u8>,
    pub records: Vec<(u8, u64, u64)>,
}

pub enum Prior {
    Valid(State),
    Missing,
    Refused(String),
}

pub enum StateDir {}

impl StateDir {
    pub fn lease(&self, _name: &str) -> (Arc<Lease>, ()) {
        match *self {}
    }

    pub fn open_table(&self, _name: &str, _layout: &str) -> Prior {
        match *self {}
    }

    pub fn begin_table(&self, _name: &str, _layout: &str, _dump: &[u8]) -> io::Result<Log> {
        match *self {}
    }
}
