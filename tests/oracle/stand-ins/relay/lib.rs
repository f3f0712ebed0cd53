//! The crate around `strikes.rs`: stand-ins for the modules that it names, and the file itself,
//! patched by `tests/oracle/patch.py` and laid beside this one by `tests/oracle/build`.
#![allow(dead_code, reason = "the file has more than a register's calls use")]

pub mod budget;
pub mod durable;
pub mod footprint;
pub mod ingest;
pub mod mlat_host;
pub mod sharing;
pub mod stage;
pub mod strikes;
