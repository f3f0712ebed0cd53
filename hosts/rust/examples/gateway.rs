//! A small gateway: reads tickets from a file and prints the verdict on each.
//!
//! ```text
//! gateway TICKETS FOLDER [MARK]
//! ```
//!
//! It is hosts/c/gateway.c in Rust: the same lines, the same settings and the same folder, so that either can go on where the other
//! stopped. A ticket is counted when its line with New is printed. Status 0 if all lines were served and all is saved.

use std::error::Error;
use std::fs::File;
use std::io::{BufRead, BufReader, Write};
use std::path::Path;
use std::process::ExitCode;

use strikes::{Deliverer, Found, Keep, Limits, MINUTE, Reading, Settings, Ticket, Window, Windows};

/// One register, tickets of one minute, as in hosts/c/gateway.c.
fn settings() -> Settings {
    let windows = Windows {
        origin: Window::of(60_000, 10_000),
        copy: Window::of(45_000, 10_000),
        bucket: 1_000,
        slots: 128,
    };
    Settings::new()
        .places(16)
        .pairs(96)
        .place_units(1, 1)
        .register(windows)
}

const LIMITS: Limits = Limits {
    feeder: 1_000,
    feeders: 4_000,
    peer: 1_000,
    peers: 4_000,
    relay: 1_000,
};

/// Tells the operator what is known; an error where the gateway cannot go on by itself.
fn tell(keep: &Keep) -> Result<(), Box<dyn Error>> {
    match keep.found() {
        Found::First => println!("started for the first time"),
        Found::Whole => println!("restored whole"),
        Found::Partly => println!("restored partly: what did not fit is Late"),
        Found::Fallback => {
            println!(
                "nothing to restore: tickets stamped up to {} are Late",
                keep.mark()
            );
        }
        Found::MarkLost => {
            return Err("the mark is lost or damaged: bring one, a number that no counted ticket's stamp is above".into());
        }
    }
    Ok(())
}

fn deliverer_of(word: &str) -> Result<Deliverer, Box<dyn Error>> {
    match word.split_once(':') {
        None if word == "r" => Ok(Deliverer::Relay),
        Some(("f", id)) => Ok(Deliverer::Feeder(id.parse()?)),
        Some(("p", id)) => Ok(Deliverer::Peer(id.parse()?)),
        _ => Err("no deliverer".into()),
    }
}

/// One line. What it prints is written before the next is read.
fn serve(keep: &mut Keep, line: &str) -> Result<(), Box<dyn Error>> {
    let line = line.split('#').next().unwrap_or("");
    let words: Vec<&str> = line.split_whitespace().collect();
    match words[..] {
        [] => Ok(()),
        [reading, "tick"] => Ok(keep.tick(reading.parse()?)?),
        [reading, who, fingerprint, stamp] => {
            let ticket = Ticket {
                fingerprint: fingerprint.parse()?,
                stamp: stamp.parse()?,
            };
            let now = Reading::at(reading.parse()?);
            let verdict = keep.take(0, ticket, now, deliverer_of(who)?)?;
            let told = format!("{reading} {who} {fingerprint} {stamp} {verdict}\n");
            Ok(std::io::stdout().write_all(told.as_bytes())?)
        }
        _ => Err("no ticket and no tick".into()),
    }
}

fn serve_file(keep: &mut Keep, tickets: &str) -> Result<(), Box<dyn Error>> {
    for line in BufReader::new(File::open(tickets)?).lines() {
        serve(keep, &line?)?;
    }
    Ok(())
}

fn run(tickets: &str, folder: &str, mark: Option<&str>) -> Result<(), Box<dyn Error>> {
    let mut keep = Keep::start(Path::new(folder), &settings(), &LIMITS, MINUTE)?;
    if let Some(mark) = mark {
        keep.begin(mark.parse()?)?;
    }
    tell(&keep)?;
    let served = serve_file(&mut keep, tickets);
    // Also where a line could not be served: what was counted is known all the same.
    keep.stop()?;
    println!("saved");
    served
}

fn main() -> ExitCode {
    let words: Vec<String> = std::env::args().skip(1).collect();
    let ended = match &words[..] {
        [tickets, folder] => run(tickets, folder, None),
        [tickets, folder, mark] => run(tickets, folder, Some(mark)),
        _ => Err("gateway TICKETS FOLDER [MARK]".into()),
    };
    match ended {
        Ok(()) => ExitCode::SUCCESS,
        Err(error) => {
            eprintln!("gateway: {error}");
            ExitCode::from(2)
        }
    }
}
