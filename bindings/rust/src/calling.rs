//! How the calls of rafendilo.h are made.

use std::marker::PhantomData;
use std::sync::Once;

use crate::raw::{self, Part};

impl Part {
    /// The place after its last byte.
    pub(crate) fn end(self) -> usize {
        self.start + self.length
    }

    /// The part of these bytes. It lies there, as is proved of each call; else this panics.
    pub(crate) fn of(self, bytes: &[u8]) -> &[u8] {
        &bytes[self.start..self.end()]
    }
}

/// What is lent to a call in a struct: a pointer and a number.
#[repr(C)]
#[derive(Clone, Copy, Debug)]
pub(crate) struct Slice<'a, T> {
    items: *const T,
    count: usize,
    lent: PhantomData<&'a [T]>,
}

impl<'a, T> From<&'a [T]> for Slice<'a, T> {
    fn from(items: &'a [T]) -> Slice<'a, T> {
        Slice { items: items.as_ptr(), count: items.len(), lent: PhantomData }
    }
}

impl<T> Default for Slice<'_, T> {
    fn default() -> Self {
        (&[][..]).into()
    }
}

/// Panics where the library has another ABI than this crate needs, which is asked once.
pub(crate) fn expect_abi() {
    static ASKED: Once = Once::new();
    ASKED.call_once(|| {
        let (abi, version) = (raw::raf_abi(), raw::raf_version());
        let its = format!("librafendilo has the ABI {abi} (version {version})");
        assert!(abi == raw::ABI, "{its}, and this crate needs {}", raw::ABI);
    });
}

/// The calls of rafendilo.h as functions that are safe: of a slice C gets the pointer and the
/// length, and a reference as a pointer. In brackets stands what each does first.
macro_rules! calls {
    (
        @ $first:tt $call:ident [$($rust:tt)*] [$($c:tt)*] [$($got:tt)*]
        $it:ident: &mut [$of:ty], $($more:tt)*
    ) => {
        calls! {
            @ $first $call [$($rust)* $it: &mut [$of],] [$($c)* _: *mut $of, _: usize,]
            [$($got)* $it.as_mut_ptr(), $it.len(),] $($more)*
        }
    };
    (
        @ $first:tt $call:ident [$($rust:tt)*] [$($c:tt)*] [$($got:tt)*]
        $it:ident: &[$of:ty], $($more:tt)*
    ) => {
        calls! {
            @ $first $call [$($rust)* $it: &[$of],] [$($c)* _: *const $of, _: usize,]
            [$($got)* $it.as_ptr(), $it.len(),] $($more)*
        }
    };
    (
        @ $first:tt $call:ident [$($rust:tt)*] [$($c:tt)*] [$($got:tt)*]
        $it:ident: $of:ty, $($more:tt)*
    ) => {
        calls! { @ $first $call [$($rust)* $it: $of,] [$($c)* _: $of,] [$($got)* $it,] $($more)* }
    };
    (@ [$($first:tt)*] $call:ident [$($rust:tt)*] [$($c:tt)*] [$($got:tt)*] $(,)?) => {
        pub(crate) fn $call($($rust)*) -> u32 {
            extern "C" {
                fn $call($($c)*) -> u32;
            }
            $($first)*
            // SAFETY: these are the parameters of rafendilo.h, out of which raw.rs is printed. Each
            // pointer has the length of its slice beside it, what is read is lent for longer than
            // the call, and what is written is borrowed by it alone.
            unsafe { $call($($got)*) }
        }
    };
    ($first:tt $(fn $call:ident($($parameters:tt)*);)*) => {
        $(calls! { @ $first $call [] [] [] $($parameters)*, })*
    };
}

pub(crate) use calls;
