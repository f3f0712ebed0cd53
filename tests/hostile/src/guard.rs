//! Lent memory between pages that nobody may touch: a read or write past either end of it ends the program with a signal, which says
//! at which input. What may only be read is lent in pages that cannot be written, with the same end.

use std::ffi::{c_char, c_int, c_uint, c_void};
use std::ptr::{slice_from_raw_parts, slice_from_raw_parts_mut};
use std::sync::atomic::{AtomicU64, Ordering};
use std::time::Duration;

const PAGE: usize = 4_096;

const PROT_NONE: c_int = 0;
const PROT_READ: c_int = 1;
const PROT_READ_WRITE: c_int = 3;
const MAP_SHARED: c_int = 0x01;
const MAP_PRIVATE_ANONYMOUS: c_int = 0x22;
const MAP_FIXED: c_int = 0x10;
const SIGNALS: [c_int; 5] = [4, 6, 7, 8, 11];

unsafe extern "C" {
    fn mmap(
        at: *mut c_void,
        length: usize,
        protection: c_int,
        flags: c_int,
        file: c_int,
        offset: i64,
    ) -> *mut c_void;
    fn memfd_create(name: *const c_char, flags: c_uint) -> c_int;
    fn ftruncate(file: c_int, length: i64) -> c_int;
    fn close(file: c_int) -> c_int;
    fn signal(number: c_int, handler: extern "C" fn(c_int)) -> usize;
    fn write(file: c_int, bytes: *const u8, length: usize) -> isize;
    fn _exit(status: c_int) -> !;
}

/// Where the lent part lies in its region.
#[derive(Clone, Copy, Debug, PartialEq, Eq)]
pub enum Against {
    /// Its first byte is the first after a guard page.
    Front,
    /// Its last byte is the last before a guard page.
    Back,
}

/// A region of memory with a guard page before and after it. It is mapped twice: where it can be written, and where it can only be read.
pub struct Region {
    start: *mut u8,
    read_only: *const u8,
    length: usize,
    /// What the region has around the lent part.
    filled: Vec<u8>,
}

/// What fills a region around the lent part.
const FILL: u8 = 0xa5;

/// Maps a file of so many bytes between two guard pages.
fn map(file: c_int, length: usize, protection: c_int) -> *mut u8 {
    unsafe {
        let all = mmap(
            std::ptr::null_mut(),
            length + 2 * PAGE,
            PROT_NONE,
            MAP_PRIVATE_ANONYMOUS,
            -1,
            0,
        );
        assert!(all as isize != -1, "no memory");
        let at = all.cast::<u8>().add(PAGE).cast();
        let start = mmap(at, length, protection, MAP_SHARED | MAP_FIXED, file, 0);
        assert!(start == at, "no memory");
        start.cast()
    }
}

/// Where a run was laid down.
pub struct Laid<T> {
    pub writable: *mut [T],
    pub read_only: *const [T],
}

impl<T: Copy> Laid<T> {
    /// A copy of what lies there.
    pub fn seen(&self) -> Vec<T> {
        unsafe { &*self.read_only }.to_vec()
    }
}

impl Region {
    pub fn new(least: usize) -> Self {
        let length = least.div_ceil(PAGE).max(1) * PAGE;
        let file = unsafe { memfd_create(c"region".as_ptr(), 0) };
        assert!(
            file >= 0 && unsafe { ftruncate(file, length as i64) } == 0,
            "no memory"
        );
        let region = Self {
            start: map(file, length, PROT_READ_WRITE),
            read_only: map(file, length, PROT_READ),
            length,
            filled: vec![FILL; length],
        };
        unsafe { close(file) };
        region.all().fill(FILL);
        region
    }

    /// The whole region. The caller holds no other part of it.
    #[allow(clippy::mut_from_ref)]
    fn all(&self) -> &mut [u8] {
        unsafe { std::slice::from_raw_parts_mut(self.start, self.length) }
    }

    /// Lays bytes or words down at one end, words at a multiple of eight.
    pub fn lay<T: Copy>(&mut self, run: &[T], against: Against) -> Laid<T> {
        let bytes = unsafe { std::slice::from_raw_parts(run.as_ptr().cast(), size_of_val(run)) };
        let at = match against {
            Against::Front => 0,
            Against::Back => self.length - bytes.len(),
        };
        self.all()[at..at + bytes.len()].copy_from_slice(bytes);
        let (writable, read_only) =
            unsafe { (self.start.add(at).cast(), self.read_only.add(at).cast()) };
        Laid {
            writable: slice_from_raw_parts_mut(writable, run.len()),
            read_only: slice_from_raw_parts(read_only, run.len()),
        }
    }

    /// Whether everything but the part laid down is as it was; then it is filled again.
    pub fn clean(&mut self, length: usize, against: Against) -> bool {
        let all = self.all();
        let (part, around) = match against {
            Against::Front => all.split_at_mut(length),
            Against::Back => {
                let (around, part) = all.split_at_mut(all.len() - length);
                (part, around)
            }
        };
        part.fill(FILL);
        *around == self.filled[..around.len()]
    }
}

static SEED: AtomicU64 = AtomicU64::new(0);
static INPUT: AtomicU64 = AtomicU64::new(0);

/// The input that is about to run, for the handler and the watch.
pub fn now_at(input: u64) {
    INPUT.store(input, Ordering::Relaxed);
}

fn tell(what: &str) -> ! {
    let (seed, input) = (SEED.load(Ordering::Relaxed), INPUT.load(Ordering::Relaxed));
    let text = format!(
        "hostile: {what} at seed {seed}, input {input}: build/hostile one {seed} {input}\n"
    );
    unsafe {
        write(2, text.as_ptr(), text.len());
        _exit(1)
    }
}

extern "C" fn signalled(number: c_int) {
    tell(match number {
        4 => "a trap",
        6 => "an abort",
        7 | 11 => "memory was touched that was not lent, or written that may only be read",
        _ => "an arithmetic fault",
    })
}

/// From now on a fault or an input that takes longer than `patience` ends the program and says where.
pub fn watch(seed: u64, patience: Duration) {
    SEED.store(seed, Ordering::Relaxed);
    for number in SIGNALS {
        unsafe { signal(number, signalled) };
    }
    std::thread::spawn(move || {
        let mut last = u64::MAX;
        loop {
            std::thread::sleep(patience);
            let at = INPUT.load(Ordering::Relaxed);
            if at == last {
                tell("no end");
            }
            last = at;
        }
    });
}
