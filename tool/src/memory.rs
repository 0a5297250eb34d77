//! Whether memory holds a long table. A command reads all of a table before it writes anything, so what does not fit is refused first.

use std::fs;

/// Up to so many bytes nobody is asked.
pub const LONG: u64 = 1 << 28;

/// Whether memory holds so many bytes more: there are addresses for them, and the machine says that they are free, where it says so.
pub fn holds(bytes: u64) -> bool {
    let addresses = || usize::try_from(bytes).is_ok_and(|bytes| Vec::<u8>::new().try_reserve_exact(bytes).is_ok());
    bytes <= LONG || addresses() && free().map_or(true, |free| bytes <= free)
}

/// Bytes that can be had without swapping, as Linux says it.
fn free() -> Option<u64> {
    let said = fs::read_to_string("/proc/meminfo").ok()?;
    let line = said.lines().find_map(|line| line.strip_prefix("MemAvailable:"))?;
    line.trim().strip_suffix(" kB")?.parse::<u64>().ok()?.checked_mul(1024)
}

#[cfg(test)]
mod tests {
    use super::*;

    #[test]
    fn what_is_held() {
        assert!(holds(0) && holds(LONG));
        assert!(!holds(u64::MAX) && !holds(1 << 46));
        assert!(free().map_or(true, |free| free > 0 && !holds(free + (1 << 40))));
    }
}
