//! The settings that the Rust has as constants of its plan, or not at all: places, pairs and the
//! two unit numbers. Set before each call into the Rust; one thread, one setting.

use std::cell::Cell;

#[derive(Clone, Copy, Default)]
pub struct Stage {
    pub places: usize,
    pub pairs: usize,
    pub feeder_units: usize,
    pub peer_units: usize,
}

thread_local! {
    static STAGE: Cell<Stage> = Cell::default();
}

pub fn set(stage: Stage) {
    STAGE.set(stage);
}

pub fn get() -> Stage {
    STAGE.get()
}

/// What a place costs under these settings, where the plan's cost for it is `planned`.
pub fn place_units(planned: usize) -> usize {
    const FEEDER: usize = crate::strikes::FEEDER_PLACE_ENTRIES;
    const PEER: usize = crate::strikes::PEER_PLACE_ENTRIES;
    const { assert!(FEEDER != PEER && FEEDER > 0 && PEER > 0) };
    match planned {
        FEEDER => get().feeder_units,
        PEER => get().peer_units,
        none => none,
    }
}

/// Whether a list of so many pairs may get no further one.
pub fn pairs_used_up(listed: usize) -> bool {
    listed >= get().pairs
}
