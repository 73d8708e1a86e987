//! SHA-256, SHA-384 and SHA-512 (FIPS 180-4), fed in parts. An exchange needs none of it: its secret step hands out H.
//!
//! ```
//! use castulfrisa::{Hash, Kind, Refusal, H_SIZE};
//! let mut hash = Hash::start(Kind::Sha256);
//! hash.feed(b"a")?;
//! hash.feed(b"bc")?;
//! let mut digest = [0; H_SIZE];
//! assert_eq!(hash.finish(&mut digest)?[..4], [0xba, 0x78, 0x16, 0xbf]);
//! assert_eq!(hash.feed(&[0; 65_534]), Err(Refusal::BadInput));
//! # Ok::<(), Refusal>(())
//! ```
use crate::raw;
use crate::refusal::{judged, Refusal};
use crate::{HASH_SIZE, H_SIZE};
use core::fmt;

/// A kind of hash; its number is its digest's length.
#[derive(Clone, Copy, Debug, PartialEq, Eq)]
pub enum Kind {
    Sha256 = 32,
    Sha384 = 48,
    Sha512 = 64,
}

impl Kind {
    pub const ALL: [Kind; 3] = [Kind::Sha256, Kind::Sha384, Kind::Sha512];

    /// The kind of a number, which is its digest's length; a method's is `Sizes::digest_len as u64`.
    pub fn of(number: u64) -> Option<Kind> {
        Kind::ALL.into_iter().find(|kind| kind.number() == number)
    }

    pub fn number(self) -> u64 {
        self as u64
    }
}

/// A hash that is fed. It holds bytes of what it was fed, and wipes itself when it is dropped; where it is moved, a copy may stay
/// behind.
///
/// ```compile_fail,E0599
/// let hash = castulfrisa::Hash::start(castulfrisa::Kind::Sha512);
/// let copy = hash.clone();
/// ```
pub struct Hash {
    state: [u8; HASH_SIZE],
    kind: Kind,
}

impl Hash {
    /// A hash that was fed nothing.
    pub fn start(kind: Kind) -> Hash {
        let mut hash = Hash { state: [0; HASH_SIZE], kind };
        // 0: the core has each kind; were it not so, what stands there refuses every part
        let _ = raw::hash_start(&mut hash.state, kind.number());
        hash
    }

    pub fn kind(&self) -> Kind {
        self.kind
    }

    /// Feeds a part. It is refused where the hash were fed more than `HASH_MOST` bytes in all: then it is as it was.
    pub fn feed(&mut self, part: &[u8]) -> Result<(), Refusal> {
        judged(raw::hash_feed(&mut self.state, part))
    }

    /// The digest of what was fed so far, written at the beginning of `digest` with zeros behind it, and lent back. The hash may be
    /// fed on.
    pub fn finish<'d>(&self, digest: &'d mut [u8; H_SIZE]) -> Result<&'d [u8], Refusal> {
        judged(raw::hash_finish(&self.state, digest))?;
        Ok(&digest[..self.kind as usize])
    }
}

impl fmt::Debug for Hash {
    // without what it was fed, and without how much
    fn fmt(&self, f: &mut fmt::Formatter<'_>) -> fmt::Result {
        f.debug_struct("Hash").field("kind", &self.kind).finish_non_exhaustive()
    }
}

impl Drop for Hash {
    fn drop(&mut self) {
        raw::wipe(&mut self.state);
    }
}
