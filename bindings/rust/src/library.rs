//! The proved library: its text for the processor, and the three calls by which it asks for memory,
//! over those of the C library. With the feature `installed` it is a library that is installed.

#[cfg(feature = "installed")]
#[link(name = "rafendilo", kind = "static", modifiers = "-bundle")]
extern "C" {}

#[cfg(all(not(feature = "installed"), target_os = "linux", target_arch = "x86_64"))]
std::arch::global_asm!(
    include_str!("../../go/rafendilo/rafendilo_linux_amd64.S"),
    options(att_syntax, raw)
);

#[cfg(all(not(feature = "installed"), target_os = "linux", target_arch = "aarch64"))]
std::arch::global_asm!(include_str!("../../go/rafendilo/rafendilo_linux_arm64.S"), options(raw));

#[cfg(not(any(
    feature = "installed",
    all(target_os = "linux", any(target_arch = "x86_64", target_arch = "aarch64"))
)))]
compile_error!("the library is for Linux on x86-64 and aarch64");

#[cfg(not(feature = "installed"))]
mod heap {
    use std::os::raw::c_void;
    use std::ptr::addr_of;

    // malloc(3)
    extern "C" {
        fn malloc(length: usize) -> *mut c_void;
        fn realloc(block: *mut c_void, length: usize) -> *mut c_void;
        fn free(block: *mut c_void);
    }

    /// What was tried: whether there is a block, and where. Where there is none, it is at a byte.
    #[repr(C)]
    pub struct Tried {
        is_there: bool,
        block: *mut c_void,
    }

    impl From<*mut c_void> for Tried {
        fn from(block: *mut c_void) -> Tried {
            static NOTHING: u8 = 0;
            if block.is_null() {
                return Tried { is_there: false, block: addr_of!(NOTHING) as *mut c_void };
            }
            Tried { is_there: true, block }
        }
    }

    #[no_mangle]
    extern "C" fn rattle_alloc(length: usize, alignment: usize) -> Tried {
        // SAFETY: malloc takes any length.
        unsafe { malloc(if length == 0 { alignment } else { length }) }.into()
    }

    #[no_mangle]
    extern "C" fn rattle_realloc(
        block: *mut c_void,
        _kept: usize,
        length: usize,
        alignment: usize,
    ) -> Tried {
        // SAFETY: the library passes a block that it was given and has not freed.
        unsafe { realloc(block, if length == 0 { alignment } else { length }) }.into()
    }

    #[no_mangle]
    extern "C" fn rattle_dealloc(block: *mut c_void) {
        // SAFETY: likewise.
        unsafe { free(block) }
    }

    #[cfg(test)]
    mod tests {
        use super::{rattle_alloc, rattle_dealloc, rattle_realloc};
        use std::slice::from_raw_parts_mut;

        /// More bytes than any machine gives.
        const MOST: usize = isize::MAX as usize;

        #[test]
        fn memory_is_given_as_the_library_assumes() {
            for length in [0, 1, 16, 100_000] {
                let mut tried = rattle_alloc(length, 16);
                assert!(tried.is_there && tried.block as usize % 16 == 0);
                for other in [length + 1, 0, length, 2 * length] {
                    tried = rattle_realloc(tried.block, 0, other, 16);
                    assert!(tried.is_there && tried.block as usize % 16 == 0);
                    // SAFETY: the block has that many bytes, and nothing else is at it.
                    unsafe { from_raw_parts_mut(tried.block.cast::<u8>(), other) }.fill(7);
                }
                let refused = rattle_realloc(tried.block, 2 * length, MOST, 16);
                assert!(!refused.is_there && !refused.block.is_null());
                // SAFETY: likewise: a block that is not given another length stays.
                let kept = unsafe { from_raw_parts_mut(tried.block.cast::<u8>(), 2 * length) };
                assert!(kept.iter().all(|it| *it == 7));
                rattle_dealloc(tried.block);
            }
            let refused = rattle_alloc(MOST, 1);
            assert!(!refused.is_there && !refused.block.is_null());
        }
    }
}
