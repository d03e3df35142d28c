//! The version of the archive that is linked.
use std::fmt;

use neon_terms_sys as sys;

/// Major, minor and patch: an archive of the same major and the same or a later minor number has all that a wrapper calls.
#[derive(Debug, Clone, Copy, PartialEq, Eq, PartialOrd, Ord, Hash)]
pub struct Version {
    pub major: u64,
    pub minor: u64,
    pub patch: u64,
}

impl Version {
    /// The version that this wrapper is for.
    pub const WRAPPER: Self = Self { major: 1, minor: 0, patch: 0 };

    /// That of a number of `neon_version`.
    fn of(number: u64) -> Self {
        Self { major: number / 1_000_000, minor: number / 1_000 % 1_000, patch: number % 1_000 }
    }

    fn takes(self, archive: Self) -> bool {
        archive.major == self.major && archive.minor >= self.minor
    }
}

impl fmt::Display for Version {
    fn fmt(&self, f: &mut fmt::Formatter<'_>) -> fmt::Result {
        write!(f, "{}.{}.{}", self.major, self.minor, self.patch)
    }
}

/// An archive that this wrapper is not for. See [`check`].
#[derive(Debug, Clone, Copy, PartialEq, Eq)]
pub struct WrongVersion {
    pub archive: Version,
}

impl fmt::Display for WrongVersion {
    fn fmt(&self, f: &mut fmt::Formatter<'_>) -> fmt::Result {
        let wanted = Version::WRAPPER;
        write!(f, "the linked libneon_terms.a has version {}, and this program needs {wanted} or a later {}.x", self.archive, wanted.major)
    }
}

impl std::error::Error for WrongVersion {}

/// The version of the linked archive, if this wrapper is for it. Every other function of this crate asks at its first call, and panics if not.
///
/// ```
/// assert_eq!(neon_terms::check_version()?.to_string(), "1.0.0");
/// # Ok::<(), neon_terms::WrongVersion>(())
/// ```
pub fn check() -> Result<Version, WrongVersion> {
    let archive = Version::of(sys::neon_version());
    if Version::WRAPPER.takes(archive) { Ok(archive) } else { Err(WrongVersion { archive }) }
}

#[cfg(test)]
mod tests {
    use super::*;

    #[test]
    fn later_minor_numbers_are_taken_and_no_other_major() {
        let wrapper = Version::of(1_002_003);
        assert_eq!(wrapper.to_string(), "1.2.3");
        for (number, taken) in [(1_002_000, true), (1_003_000, true), (1_001_999, false), (2_002_003, false), (2_003, false), (0, false)] {
            assert_eq!(wrapper.takes(Version::of(number)), taken, "{number}");
        }
        let message = WrongVersion { archive: Version::of(2_000_001) }.to_string();
        assert!(message.contains("2.0.1") && message.contains("1.0.0"), "{message}");
    }
}
