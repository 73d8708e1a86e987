//! The nine methods: numbers, names and sizes.
use crate::{raw, METHOD_NAME_MOST};
use core::fmt;
use core::ops::Deref;

/// A key-exchange method.
#[derive(Clone, Copy, Debug, PartialEq, Eq, Hash, PartialOrd, Ord)]
pub enum Method {
    Curve25519Sha256 = 1,
    Curve25519Sha256Libssh = 2,
    Curve448Sha512 = 3,
    Nistp256Sha256 = 4,
    Nistp384Sha384 = 5,
    Nistp521Sha512 = 6,
    Mlkem768Nistp256Sha256 = 7,
    Mlkem1024Nistp384Sha384 = 8,
    Mlkem768X25519Sha256 = 9,
}

impl Method {
    /// All of them, by their numbers.
    pub const ALL: [Method; 9] = [
        Method::Curve25519Sha256,
        Method::Curve25519Sha256Libssh,
        Method::Curve448Sha512,
        Method::Nistp256Sha256,
        Method::Nistp384Sha384,
        Method::Nistp521Sha512,
        Method::Mlkem768Nistp256Sha256,
        Method::Mlkem1024Nistp384Sha384,
        Method::Mlkem768X25519Sha256,
    ];

    /// The core's number.
    pub fn number(self) -> u64 {
        self as u64
    }

    /// The method of a number, 1 to 9.
    pub fn of(number: u64) -> Option<Method> {
        Method::ALL.into_iter().find(|method| method.number() == number)
    }

    /// The method of this name.
    pub fn of_name(name: &[u8]) -> Option<Method> {
        Method::of(raw::method_number(name))
    }

    /// Its name on the wire.
    pub fn name(self) -> Name {
        let (mut bytes, mut len) = ([0; METHOD_NAME_MOST], 0);
        // 0: the buffer holds any method's name
        let _ = raw::method_name(self.number(), &mut bytes, &mut len);
        Name { bytes, len: len as usize }
    }

    /// Its sizes.
    pub fn sizes(self) -> Sizes {
        let mut sizes = raw::Sizes::default();
        // 0: every method has a row
        let _ = raw::method_sizes(self.number(), &mut sizes);
        Sizes {
            c_len: sizes.c_len as usize,
            c_classical: sizes.c_classical as usize,
            s_len: sizes.s_len as usize,
            s_classical: sizes.s_classical as usize,
            x_len: sizes.x_len as usize,
            digest_len: sizes.digest_len as usize,
            hybrid: sizes.hybrid == 1,
            zero_check: sizes.zero_check == 1,
        }
    }
}

/// A method's name, as bytes.
#[derive(Clone, Copy, PartialEq, Eq)]
pub struct Name {
    bytes: [u8; METHOD_NAME_MOST],
    len: usize,
}

impl Deref for Name {
    type Target = [u8];

    fn deref(&self) -> &[u8] {
        &self.bytes[..self.len]
    }
}

impl fmt::Display for Name {
    fn fmt(&self, f: &mut fmt::Formatter<'_>) -> fmt::Result {
        self.escape_ascii().fmt(f)
    }
}

impl fmt::Debug for Name {
    fn fmt(&self, f: &mut fmt::Formatter<'_>) -> fmt::Result {
        write!(f, "\"{}\"", self)
    }
}

/// A method's sizes in bytes, and its two rules.
#[derive(Clone, Copy, Debug, PartialEq, Eq)]
pub struct Sizes {
    pub c_len: usize,
    /// Where C's classical part begins behind the KEM's; 0 where there is no KEM.
    pub c_classical: usize,
    pub s_len: usize,
    /// Where S's does.
    pub s_classical: usize,
    pub x_len: usize,
    /// The digest in H, which is the kind of its hash too.
    pub digest_len: usize,
    /// Whether a KEM belongs to it.
    pub hybrid: bool,
    /// Whether an all-zero X is refused.
    pub zero_check: bool,
}
