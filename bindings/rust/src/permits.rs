//! What a grant permits.

use std::ops::BitOr;

use crate::raw;

/// What a grant permits. [`Permits::default`] permits nothing.
#[derive(Clone, Copy, Debug, Default, PartialEq, Eq, Hash)]
pub struct Permits(u32);

impl Permits {
    /// A terminal.
    pub const PTY: Permits = Permits(raw::PERMIT_PTY);
    /// The forwarding of ports.
    pub const PORT_FORWARDING: Permits = Permits(raw::PERMIT_PORT_FORWARDING);
    /// The forwarding of the client's agent.
    pub const AGENT_FORWARDING: Permits = Permits(raw::PERMIT_AGENT_FORWARDING);
    /// The forwarding of X11.
    pub const X11_FORWARDING: Permits = Permits(raw::PERMIT_X11_FORWARDING);
    /// The user's `~/.ssh/rc`.
    pub const USER_RC: Permits = Permits(raw::PERMIT_USER_RC);
    /// The command that the client asks for, or a shell.
    pub const ANY_COMMAND: Permits = Permits(raw::PERMIT_ANY_COMMAND);
    /// A signature by a security key that nobody touched.
    pub const NO_TOUCH: Permits = Permits(raw::PERMIT_NO_TOUCH);
    /// A signature by a security key that did not verify its user.
    pub const NO_VERIFICATION: Permits = Permits(raw::PERMIT_NO_VERIFICATION);
    /// Tunnels (tun(4)).
    pub const TUNNELS: Permits = Permits(raw::PERMIT_TUNNELS);
    /// Whichever device of them; never without them.
    pub const ANY_TUNNEL: Permits = Permits(raw::PERMIT_ANY_TUNNEL);

    /// What those bits permit, which are `RAF_PERMIT_*` of rafendilo.h.
    #[must_use]
    pub const fn from_bits(bits: u32) -> Permits {
        Permits(bits)
    }

    /// The bits, which are `RAF_PERMIT_*` of rafendilo.h.
    #[must_use]
    pub const fn bits(self) -> u32 {
        self.0
    }

    /// Whether it permits all of that.
    #[must_use]
    pub const fn contains(self, other: Permits) -> bool {
        self.0 & other.0 == other.0
    }
}

impl BitOr for Permits {
    type Output = Permits;

    fn bitor(self, other: Permits) -> Permits {
        Permits(self.0 | other.0)
    }
}
