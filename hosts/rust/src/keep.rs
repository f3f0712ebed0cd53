//! What a gateway keeps in a folder, so that no ticket is counted twice through a stop or a crash. docs/HOST-GUIDE.md, "Crashes", has
//! the protocol and says why each step is where it is.
//!
//! Files are little-endian 64-bit words:
//!
//! ```text
//! mark     run, mark, name of the kind, checksum
//! saved    the dumps of all registers, the 29 settings, run, name of the kind, checksum
//! ```
//!
//! A file is replaced as a whole: written as NAME.new, synced, renamed, and the folder synced. The rename is the step that decides. A
//! save belongs to the run that made it: it is restored only while the mark has that run's number, and every start raises the number.
//! The files are the same as those of hosts/c/keep.c.

use std::error::Error;
use std::fmt;
use std::fs::{self, File, TryLockError};
use std::io::{self, Write};
use std::path::{Path, PathBuf};

use crate::answers::{Deliverer, Refusal, Restored, Start, Verdict};
use crate::gateway::{Gateway, Reading, Ticket};
use crate::settings::{Limits, Settings};

const WORD: usize = 8;
/// Behind the content of every file: its kind and its checksum.
const SEAL: usize = 2 * WORD;
const MARK_KIND: [u8; WORD] = *b"mark   1";
const SAVED_KIND: [u8; WORD] = *b"saved  1";

/// How far ahead of the tickets the mark is written, in milliseconds: one sync of the disk for a minute of stamps. After a crash
/// tickets stamped up to so much after the last that was counted are Late.
pub const MINUTE: u64 = 60_000;

/// What a start found, and how the registers stand.
#[derive(Clone, Copy, Debug, PartialEq, Eq)]
pub enum Found {
    /// Nothing: no gateway has ever run on this folder. The registers are Empty.
    First,
    /// What the last stop saved. It is restored, whole.
    Whole,
    /// The same, but some of it did not fit. What did not fit is Late: tell the operator, and give the settings or limits more room.
    Partly,
    /// No save of the last run under these settings: it crashed, or the file is damaged. Nothing stamped up to the mark is New: tell
    /// the operator.
    Fallback,
    /// No mark, or a damaged one, in a folder that was used. The registers wait, and every ticket is Unjudged until
    /// [`begin`](Keep::begin).
    MarkLost,
}

/// Why a call did not go through.
#[derive(Debug)]
pub enum KeepError {
    /// A file or the folder cannot be read, written or synced.
    Disk(io::Error),
    /// Another process has the folder.
    InUse,
    /// The mark is lost, and [`begin`](Keep::begin) has not brought another.
    NoMark,
    /// The register refused it.
    Refused(Refusal),
}

impl fmt::Display for KeepError {
    fn fmt(&self, f: &mut fmt::Formatter<'_>) -> fmt::Result {
        match self {
            Self::Disk(error) => {
                write!(f, "a file cannot be read, written or synced: {error}")
            }
            Self::InUse => f.write_str("another process has the folder"),
            Self::NoMark => f.write_str("the mark is lost, and none was brought"),
            Self::Refused(refusal) => write!(f, "{refusal}"),
        }
    }
}

impl Error for KeepError {}

impl From<io::Error> for KeepError {
    fn from(error: io::Error) -> Self {
        Self::Disk(error)
    }
}

impl From<Refusal> for KeepError {
    fn from(refusal: Refusal) -> Self {
        Self::Refused(refusal)
    }
}

/// A gateway whose tickets are counted once, through stops and crashes. It has a folder, and one process at a time has that.
///
/// ```
/// use strikes::{Deliverer, Found, Keep, Limits, MINUTE, Reading, Settings, Ticket, Verdict, Window, Windows};
///
/// # fn main() -> Result<(), strikes::KeepError> {
/// # let window = Window::of(10_000, 2_000);
/// # let settings = Settings::new().register(Windows { origin: window, copy: window, bucket: 1_000, slots: 8 });
/// # let limits = Limits { feeder: 9, feeders: 9, ..Limits::default() };
/// # let folder = std::env::temp_dir().join(format!("keep-{}", std::process::id()));
/// # std::fs::create_dir(&folder)?;
/// let (ticket, now) = (Ticket { fingerprint: 7, stamp: 100_000 }, Reading::at(100_000));
/// let mut first = Keep::start(&folder, &settings, &limits, MINUTE)?;
/// assert_eq!(first.found(), Found::First);
/// assert_eq!(first.take(0, ticket, now, Deliverer::Feeder(1))?, Verdict::New);
/// first.stop()?;
///
/// let mut second = Keep::start(&folder, &settings, &limits, MINUTE)?;
/// assert_eq!(second.found(), Found::Whole);
/// assert_eq!(second.take(0, ticket, now, Deliverer::Feeder(1))?, Verdict::Duplicate);
/// drop(second); // a crash: nothing is saved
///
/// let mut third = Keep::start(&folder, &settings, &limits, MINUTE)?;
/// assert_eq!(third.found(), Found::Fallback);
/// assert_eq!(third.take(0, ticket, now, Deliverer::Feeder(1))?, Verdict::Late);
/// # std::fs::remove_dir_all(&folder)?;
/// # Ok(())
/// # }
/// ```
#[derive(Debug)]
pub struct Keep {
    gateway: Gateway,
    settings: Settings,
    limits: Limits,
    found: Found,
    disk: Disk,
    reserve: u64,
}

impl Keep {
    /// Opens the registers and brings back what the last stop saved, or else starts at the mark. What was saved is used up by it. The
    /// folder must exist: to make it is to say that no gateway has run on it. `reserve` is [`MINUTE`], or another number of
    /// milliseconds.
    pub fn start(
        folder: &Path,
        settings: &Settings,
        limits: &Limits,
        reserve: u64,
    ) -> Result<Self, KeepError> {
        let mut disk = Disk::lock(folder)?;
        let found = disk.read_mark()?;
        let dumps = match found {
            Found::Fallback => disk.read_saved(settings),
            _ => None,
        };
        let (gateway, found) = match (found, dumps) {
            (Found::First, _) => (opened(settings, limits, Start::Empty)?, found),
            (Found::MarkLost, _) => (opened(settings, limits, Start::Fallback)?, found),
            (_, Some(dumps)) => restored(settings, limits, &dumps)
                .or_else(|_| begun(settings, limits, disk.mark))?,
            (_, None) => begun(settings, limits, disk.mark)?,
        };
        // So far nothing on the disk was altered.
        if found != Found::MarkLost {
            disk.use_up()?;
        }
        Ok(Self {
            gateway,
            settings: settings.clone(),
            limits: *limits,
            found,
            disk,
            reserve,
        })
    }

    /// What the start found.
    pub fn found(&self) -> Found {
        self.found
    }

    /// No ticket stamped after it has been counted, as the disk has it.
    pub fn mark(&self) -> u64 {
        self.disk.mark
    }

    /// For all calls that only read.
    pub fn gateway(&self) -> &Gateway {
        &self.gateway
    }

    /// After [`Found::MarkLost`]: a mark by hand, a number that no counted ticket's stamp is above. It is written, and the registers
    /// begin at it. Otherwise nothing is done.
    pub fn begin(&mut self, mark: u64) -> Result<(), KeepError> {
        if self.found == Found::MarkLost {
            // Runs are counted on from the mark, so that no file that is put back has the number of a later run.
            (self.disk.run, self.disk.mark) = (mark, mark);
            self.disk.use_up()?;
            (self.gateway, self.found) = begun(&self.settings, &self.limits, mark)?;
        }
        Ok(())
    }

    /// Raises the mark on the disk to a stamp, and the reserve ahead of it.
    fn reserve(&mut self, stamp: u64) -> Result<(), KeepError> {
        if stamp <= self.disk.mark {
            return Ok(());
        }
        if self.found == Found::MarkLost {
            return Err(KeepError::NoMark);
        }
        let mark = stamp.saturating_add(self.reserve);
        Ok(self.disk.write_mark(self.disk.run, mark)?)
    }

    /// As [`Gateway::take_batch`]: count a ticket only where this says New. Before a ticket above the mark is New, the mark is raised
    /// on the disk. Where that fails, the ticket is not taken and may be brought again.
    pub fn take(
        &mut self,
        register: u64,
        ticket: Ticket,
        now: Reading,
        who: Deliverer,
    ) -> Result<Verdict, KeepError> {
        // A ticket above the mark is judged first, so that the mark rises only for one that is New.
        if ticket.stamp > self.disk.mark {
            match self.gateway.judge_batch(register, ticket, now, who)? {
                Verdict::New => self.reserve(ticket.stamp)?,
                other => return Ok(other),
            }
        }
        Ok(self.gateway.take_batch(register, ticket, now, who)?)
    }

    /// As [`Gateway::restore`], for a neighbour's dump. The mark is raised to all that the register then holds: after a crash it is
    /// Late.
    pub fn restore(&mut self, register: u64, dump: &[u8]) -> Result<Restored, KeepError> {
        if self.found == Found::MarkLost {
            return Err(KeepError::NoMark);
        }
        let restored = self.gateway.restore(register, dump)?;
        let held = self.gateway.generations(register)?;
        let newest = held.iter().map(|one| one.newest).max();
        self.reserve(newest.max(self.gateway.floor(register)?).unwrap_or(0))?;
        Ok(restored)
    }

    /// As [`Gateway::tick`].
    pub fn tick(&mut self, ms: u64) -> Result<(), KeepError> {
        Ok(self.gateway.tick(ms)?)
    }

    /// As [`Gateway::set_limits`].
    pub fn set_limits(&mut self, limits: &Limits) -> Result<(), KeepError> {
        Ok(self.gateway.set_limits(limits)?)
    }

    /// Closes the share book, so that no ticket is New any more, and saves every register.
    pub fn stop(mut self) -> Result<(), KeepError> {
        self.gateway.close()?;
        let mut file = Vec::new();
        for register in 0..self.settings.registers().len() {
            file.extend(self.gateway.dump(register as u64)?);
        }
        file.extend(trailer(&self.settings, self.disk.run));
        Ok(self.disk.replace("saved", &sealed(file, SAVED_KIND))?)
    }
}

// ---- the registers

fn opened(settings: &Settings, limits: &Limits, start: Start) -> Result<Gateway, KeepError> {
    let starts = vec![start; settings.registers().len()];
    Ok(Gateway::open(settings, limits, &starts)?)
}

/// All dumps brought back into empty registers.
fn restored(
    settings: &Settings,
    limits: &Limits,
    mut dumps: &[u8],
) -> Result<(Gateway, Found), KeepError> {
    let mut gateway = opened(settings, limits, Start::Empty)?;
    let mut found = Found::Whole;
    for register in 0..settings.registers().len() {
        let read = match gateway.restore(register as u64, dumps)? {
            Restored::Whole(read) => read,
            Restored::Partly(read) => {
                found = Found::Partly;
                read
            }
        };
        dumps = &dumps[read as usize..];
    }
    Ok((gateway, found))
}

/// All registers begun at the mark.
fn begun(settings: &Settings, limits: &Limits, mark: u64) -> Result<(Gateway, Found), KeepError> {
    let mut gateway = opened(settings, limits, Start::Fallback)?;
    for register in 0..settings.registers().len() {
        gateway.begin(register as u64, mark)?;
    }
    Ok((gateway, Found::Fallback))
}

// ---- words and checksums

fn checksum_step(sum: u64, byte: u8) -> u64 {
    (0..8).fold(sum ^ u64::from(byte), |sum, _| {
        (sum >> 1) ^ (0xc96c_5795_d787_0f42 * (sum & 1))
    })
}

/// CRC-64/XZ: it differs after any damage within 64 bits in a row.
fn checksum(bytes: &[u8]) -> u64 {
    !bytes
        .iter()
        .fold(u64::MAX, |sum, byte| checksum_step(sum, *byte))
}

/// A file's content with its kind and its checksum behind it.
fn sealed(mut content: Vec<u8>, kind: [u8; WORD]) -> Vec<u8> {
    content.extend(kind);
    content.extend(checksum(&content).to_le_bytes());
    content
}

/// The content of a file of this kind, if no bit of it was altered.
fn unsealed(file: &[u8], kind: [u8; WORD]) -> Option<&[u8]> {
    let (content, _) = file.split_at_checked(file.len().checked_sub(SEAL)?)?;
    (sealed(content.to_vec(), kind) == file).then_some(content)
}

fn bytes_of(words: &[u64]) -> Vec<u8> {
    words.iter().flat_map(|word| word.to_le_bytes()).collect()
}

/// What stands behind the dumps: settings and run.
fn trailer(settings: &Settings, run: u64) -> Vec<u8> {
    bytes_of(&[settings.words().as_slice(), &[run]].concat())
}

/// The dumps of a save, if it is one of this run, under these settings.
fn dumps_of(file: &[u8], settings: &Settings, run: u64) -> Option<Vec<u8>> {
    unsealed(file, SAVED_KIND)?
        .strip_suffix(trailer(settings, run).as_slice())
        .map(<[u8]>::to_vec)
}

/// Run and mark of a mark's file.
fn mark_of(file: &[u8]) -> Option<(u64, u64)> {
    let (run, mark) = unsealed(file, MARK_KIND)?.split_at_checked(WORD)?;
    Some((
        u64::from_le_bytes(run.try_into().ok()?),
        u64::from_le_bytes(mark.try_into().ok()?),
    ))
}

// ---- the folder

/// The folder, and what its mark says.
#[derive(Debug)]
struct Disk {
    path: PathBuf,
    /// Open and locked.
    folder: File,
    run: u64,
    mark: u64,
}

impl Disk {
    fn lock(path: &Path) -> Result<Self, KeepError> {
        let folder = File::open(path)?;
        folder.try_lock().map_err(|error| match error {
            TryLockError::WouldBlock => KeepError::InUse,
            TryLockError::Error(error) => KeepError::Disk(error),
        })?;
        Ok(Self {
            path: path.to_owned(),
            folder,
            run: 0,
            mark: 0,
        })
    }

    fn has(&self, name: &str) -> io::Result<bool> {
        self.path.join(name).try_exists()
    }

    /// Puts a whole new file in the place of an old one. After a crash there is the old one or the new one.
    fn replace(&self, name: &str, bytes: &[u8]) -> io::Result<()> {
        let fresh = self.path.join(format!("{name}.new"));
        let mut file = File::create(&fresh)?;
        file.write_all(bytes)?;
        file.sync_all()?;
        fs::rename(fresh, self.path.join(name))?;
        self.folder.sync_all()
    }

    fn write_mark(&mut self, run: u64, mark: u64) -> io::Result<()> {
        self.replace("mark", &sealed(bytes_of(&[run, mark]), MARK_KIND))?;
        (self.run, self.mark) = (run, mark);
        Ok(())
    }

    /// What the mark says of the folder: First, MarkLost or, until a save is found, Fallback.
    fn read_mark(&mut self) -> io::Result<Found> {
        if !self.has("mark")? {
            let used = self.has("saved")? || self.has("used")?;
            return Ok(if used { Found::MarkLost } else { Found::First });
        }
        match mark_of(&fs::read(self.path.join("mark"))?) {
            None => Ok(Found::MarkLost),
            Some((run, mark)) => {
                (self.run, self.mark) = (run, mark);
                Ok(Found::Fallback)
            }
        }
    }

    /// The dumps of the last stop, if they are to be restored. An error of reading is damage too.
    fn read_saved(&self, settings: &Settings) -> Option<Vec<u8>> {
        let file = fs::read(self.path.join("saved")).ok()?;
        dumps_of(&file, settings, self.run)
    }

    /// Uses up what was saved. The mark gets the next run's number: from then on no file is the save of the last run. It is then
    /// renamed, so that the folder shows it.
    fn use_up(&mut self) -> io::Result<()> {
        self.write_mark(self.run.wrapping_add(1), self.mark)?;
        if !self.has("saved")? {
            return Ok(());
        }
        fs::rename(self.path.join("saved"), self.path.join("used"))?;
        self.folder.sync_all()
    }
}

#[cfg(test)]
mod tests;
