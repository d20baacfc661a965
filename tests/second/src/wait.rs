//! A call that awaits its reply, and how long it has waited.

#[derive(Clone, Copy, Debug, PartialEq, Eq)]
pub struct Wait {
    pub caller: u32,
    pub callee: u32,
    pub serial: u32,
    /// The last tick that was set when the call passed.
    pub tick: u64,
}

impl Wait {
    /// What a reply has to fit, and what may not wait twice. The tick is no part of it.
    pub fn triple(&self) -> (u32, u32, u32) {
        (self.caller, self.callee, self.serial)
    }

    /// Ticks never fall, so `now` is not below the wait's own.
    pub fn age(&self, now: u64) -> u64 {
        now - self.tick
    }
}
