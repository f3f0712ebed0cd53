//! The entry points of libstrikes.a over raw slices and pointers to out numbers, for hosts that lend memory which no reference may
//! name; [`raw`](crate::raw) has them for all others. The answer is 0, or the number of a refusal, and then nothing is altered.
//!
//! # Safety
//!
//! The slices and out numbers of one call are memory of the caller's, valid to read and, where they are `*mut`, to write. None that is
//! `*mut` overlaps another.

/// Makes the function of one entry point. Its arguments are taken one by one; what each becomes is put behind what those before it
/// became: the parameters of the function in C, the parameters of the function over slices, and what the second hands to the first.
macro_rules! lower {
    // In C a run is a pointer and a length.
    ($name:ident($run:ident: &[$of:ty], $($left:tt)*) -> $outs:tt, ($($c:tt)*) ($($slices:tt)*) ($($handed:tt)*)) => {
        lower! {
            $name($($left)*) -> $outs,
            ($($c)* $run: *const $of, _: usize,) ($($slices)* $run: *const [$of],) ($($handed)* $run.cast(), $run.len(),)
        }
    };
    ($name:ident($run:ident: &mut [$of:ty], $($left:tt)*) -> $outs:tt, ($($c:tt)*) ($($slices:tt)*) ($($handed:tt)*)) => {
        lower! {
            $name($($left)*) -> $outs,
            ($($c)* $run: *mut $of, _: usize,) ($($slices)* $run: *mut [$of],) ($($handed)* $run.cast(), $run.len(),)
        }
    };
    // A number stays a number.
    ($name:ident($number:ident, $($left:tt)*) -> $outs:tt, ($($c:tt)*) ($($slices:tt)*) ($($handed:tt)*)) => {
        lower! { $name($($left)*) -> $outs, ($($c)* $number: u64,) ($($slices)* $number: u64,) ($($handed)* $number,) }
    };
    // None is left.
    ($name:ident() -> ($($out:ident),*), ($($c:tt)*) ($($slices:tt)*) ($($handed:tt)*)) => {
        #[doc = concat!("`strikes_", stringify!($name), "`; its safety is that of the module.")]
        #[allow(clippy::missing_safety_doc, clippy::too_many_arguments)]
        #[inline]
        pub unsafe fn $name($($slices)* $($out: *mut u64),*) -> u64 {
            unsafe extern "C" {
                #[link_name = concat!("strikes_", stringify!($name))]
                fn entry($($c)* $($out: *mut u64),*) -> u64;
            }
            unsafe { entry($($handed)* $($out),*) }
        }
    };
}

macro_rules! lower_all {
    ($($(#[$doc:meta])* $name:ident($($arguments:tt)*) -> $outs:tt;)*) => {
        $(lower! { $name($($arguments)*,) -> $outs, () () () })*
    };
}

crate::entries!(lower_all);
