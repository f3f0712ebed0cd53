//! The table of entry points. What the Rust hosts know of their names, arguments and out numbers is made from it: the functions over
//! raw slices ([`abi`](crate::abi)), the safe ones ([`raw`](crate::raw)), and the calls of tests/hostile.
//!
//! A new entry point is a line here and a declaration in include/strikes.h. tests/entries.py holds both against crates/strikes_c,
//! argument by argument, and says where the new one is not used yet.

/// Hands the table of entry points to a macro, which makes something for each of them.
///
/// An entry point is `name(arguments) -> (out numbers);`. An argument without a type is a 64-bit number, and so is every out number.
/// A run of words or bytes has its type: `&` where it is only read, `&mut` where it may be altered. In C the name has the prefix
/// `strikes_`, a run is a pointer and a length, and the out numbers are pointers behind the arguments.
///
/// ```
/// macro_rules! names {
///     ($($(#[$doc:meta])* $name:ident($($arg:ident $(: $run:ty)?),*) -> ($($out:ident),*);)*) => { [$(stringify!($name)),*] };
/// }
/// assert!(strikes::entries!(names).contains(&"judge"));
/// ```
#[macro_export]
macro_rules! entries {
    ($make:ident) => {
        $make! {
            /// The words that these settings need.
            words_needed(settings: &[u64]) -> (needed);
            /// Makes of the words a new share book and its registers.
            open(settings: &[u64], limits: &[u64], starts: &[u64], words: &mut [u64]) -> ();
            /// What a ticket is. Nothing of it is remembered.
            judge(settings: &[u64], words: &mut [u64], register, fingerprint, stamp, reading, flag, kind, number) -> (verdict);
            /// As [`judge`], but a ticket past the front of its window is Ahead.
            judge_batch(settings: &[u64], words: &mut [u64], register, fingerprint, stamp, reading, flag, kind, number) -> (verdict);
            /// As [`judge`], and a New ticket draws a share and is remembered.
            take(settings: &[u64], words: &mut [u64], register, fingerprint, stamp, reading, flag, kind, number) -> (verdict);
            /// As [`take`], but a ticket past the front of its window is Ahead.
            take_batch(settings: &[u64], words: &mut [u64], register, fingerprint, stamp, reading, flag, kind, number) -> (verdict);
            /// Why a [`take`] with these arguments would answer as it would: the rule that decides, the class that holds the ticket
            /// where that is the rule, else 0, and the take's verdict.
            explain(settings: &[u64], words: &[u64], register, fingerprint, stamp, reading, flag, kind, number) -> (rule, class, verdict);
            /// 1 and the smallest stamp for which [`take_batch`] would give the verdict of the wanted number; 0 and 0 where no stamp does.
            stamp_for(settings: &[u64], words: &[u64], register, fingerprint, reading, flag, kind, number, wanted) -> (found, stamp);
            /// 1 where any bucket of the register holds the fingerprint, else 0.
            contains_hash(settings: &[u64], words: &[u64], register, fingerprint) -> (held);
            /// Raises a pending register's floor and lets it judge: 1. A register that is not pending is left as it is: 0.
            begin(settings: &[u64], words: &mut [u64], register, floor) -> (begun);
            /// Frees the entries of seconds that every register has swept past.
            expire(settings: &[u64], words: &mut [u64], reading) -> ();
            /// Drops the generations that the clock has passed.
            sweep(settings: &[u64], words: &mut [u64], register, reading) -> ();
            /// Other limits from now on.
            set_limits(settings: &[u64], words: &mut [u64], limits: &[u64]) -> ();
            /// No share is drawn from now on.
            close(settings: &[u64], words: &mut [u64]) -> ();
            /// Writes a register's dump at the start of `out`; the bytes written.
            dump(settings: &[u64], words: &[u64], register, out: &mut [u8]) -> (written);
            /// Brings a dump back into a register: 1 where all of it came in, else 0; and the bytes read.
            restore(settings: &[u64], words: &mut [u64], register, bytes: &[u8]) -> (whole, read);
            /// As [`restore`], with the register's floor forgotten before, and raised to `floor` after where `flag` is 1.
            resume(settings: &[u64], words: &mut [u64], register, bytes: &[u8], flag, floor) -> (whole, read);
            /// 1 where a register has a floor, and the floor; else 0 and 0.
            floor(settings: &[u64], words: &[u64], register) -> (present, floor);
            /// 1 where a register waits for its [`begin`], else 0.
            pending(settings: &[u64], words: &[u64], register) -> (pending);
            /// The bucket that a register is swept to, and its published sweep in milliseconds.
            swept(settings: &[u64], words: &[u64], register) -> (bucket, published);
            /// Writes a register's view at the start of `out`; the words written. Of each held generation, in a dump's sequence, they are
            /// its bucket, oldest stamp, newest stamp and number held.
            view_register(settings: &[u64], words: &[u64], register, out: &mut [u64]) -> (written);
            /// Writes a deliverer's view at the start of `out`; the words written. They are second and count of each of its pairs, seconds
            /// rising, and then its entries.
            view_deliverer(settings: &[u64], words: &[u64], kind, number, out: &mut [u64]) -> (written);
            /// A deliverer's entries.
            held(settings: &[u64], words: &[u64], kind, number) -> (entries);
            /// A class's entries, holders, units and `expired`.
            class(settings: &[u64], words: &[u64], class) -> (entries, holders, units, expired);
        }
    };
}
