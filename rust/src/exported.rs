//! The exported functions (`./staticlib exports`), each with its answer as a
//! slice: it returns 0 where accepted, number + 65,536 · record where refused,
//! and [`SHORT_ANSWER`] where the answer has fewer than [`ENTRIES`] entries.

/// How many entries an answer has at least; those after them are kept.
pub const ENTRIES: usize = 4;

/// Returned where the answer has fewer.
pub const SHORT_ANSWER: usize = 65_535;

/// The functions of a table of calls.
macro_rules! calls {
    ($($(#[$doc:meta])* $name:ident($($parameters:tt)*);)*) => {
        $(call! {
            [$(#[$doc])* $name] () () ()
            $($parameters)*, answer: &mut [u64],
        })*
    };
}

/// One function: its parameters one by one, as they are, in C, and as they are passed.
macro_rules! call {
    ($call:tt ($($own:tt)*) ($($c:tt)*) ($($passed:tt)*) $name:ident: usize, $($rest:tt)*) => {
        call! { $call
            ($($own)* $name: usize,)
            ($($c)* _: usize,)
            ($($passed)* $name,)
            $($rest)* }
    };
    ($call:tt ($($own:tt)*) ($($c:tt)*) ($($passed:tt)*) $name:ident: &[$of:ty], $($rest:tt)*) => {
        call! { $call
            ($($own)* $name: &[$of],)
            ($($c)* _: *const $of, _: usize,)
            ($($passed)* $name.as_ptr(), $name.len(),)
            $($rest)* }
    };
    ($call:tt ($($own:tt)*) ($($c:tt)*) ($($passed:tt)*) $name:ident: &mut [$of:ty], $($rest:tt)*) => {
        call! { $call
            ($($own)* $name: &mut [$of],)
            ($($c)* _: *mut $of, _: usize,)
            ($($passed)* $name.as_mut_ptr(), $name.len(),)
            $($rest)* }
    };
    ([$(#[$doc:meta])* $name:ident] ($($own:tt)*) ($($c:tt)*) ($($passed:tt)*)) => {
        $(#[$doc])*
        pub fn $name($($own)*) -> usize {
            unsafe extern "C" {
                #[link_name = concat!("girvotal_", stringify!($name))]
                fn exported($($c)*) -> usize;
            }
            // SAFETY: a pointer and the length after it are those of one slice, and a slice
            // that is written overlaps no other, being borrowed alone.
            unsafe { exported($($passed)*) }
        }
    };
}

include!("table.rs");
