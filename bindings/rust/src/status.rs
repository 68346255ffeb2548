//! What calls answer.

use std::fmt;
use std::num::NonZeroU32;

/// Why a call failed: the number of rafendilo.h, which says of each what it means. That a call is
/// done is `Ok`, and no `Status`.
#[derive(Clone, Copy, PartialEq, Eq, PartialOrd, Ord, Hash)]
#[must_use]
pub struct Status(NonZeroU32);

impl Status {
    /// What a call has returned.
    pub(crate) fn of(answer: u32) -> Result<(), Status> {
        NonZeroU32::new(answer).map_or(Ok(()), |number| Err(Status(number)))
    }

    /// The number of rafendilo.h.
    #[must_use]
    pub const fn number(self) -> u32 {
        self.0.get()
    }

    pub(crate) const fn constant(number: u32) -> Status {
        match NonZeroU32::new(number) {
            Some(number) => Status(number),
            None => panic!("no status is 0"),
        }
    }
}

/// A constant for each number, its name and its words. raw.rs has them.
macro_rules! statuses {
    ($($(#[doc = $meaning:literal])+ $name:ident = $number:literal, $words:literal;)+) => {
        impl Status {
            $($(#[doc = $meaning])+ pub const $name: Status = Status::constant($number);)+

            /// The name of rafendilo.h, without `RAF_`, as `raf_status_name` gives it; `no
            /// status` for a number that has none.
            #[must_use]
            pub const fn name(self) -> &'static str {
                match self.number() {
                    $($number => stringify!($name),)+
                    _ => "no status",
                }
            }

            /// What it means, in words.
            #[must_use]
            pub const fn meaning(self) -> &'static str {
                match self.number() {
                    $($number => $words,)+
                    _ => "a status without words",
                }
            }
        }
    };
}

pub(crate) use statuses;

/// The meaning and the number.
impl fmt::Display for Status {
    fn fmt(&self, formatter: &mut fmt::Formatter<'_>) -> fmt::Result {
        write!(formatter, "{} ({})", self.meaning(), self.number())
    }
}

/// The name and the number.
impl fmt::Debug for Status {
    fn fmt(&self, formatter: &mut fmt::Formatter<'_>) -> fmt::Result {
        write!(formatter, "{} ({})", self.name(), self.number())
    }
}

impl std::error::Error for Status {}
