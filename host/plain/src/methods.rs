//! Methods: the table, and what it says of the form of C and S.

#[derive(Clone, Copy, PartialEq, Eq, Debug, Default)]
pub struct Method {
    pub name: &'static [u8],
    pub c_len: usize,
    pub s_len: usize,
    pub x_len: usize,
    pub digest_len: usize,
    /// K is the digest of K_PQ and X as a string; otherwise it is X as an mpint.
    pub hybrid: bool,
    pub zero_check: bool,
    /// The classical part is a NIST point.
    pub nist: bool,
    /// Where the classical part of C begins: the KEM part comes first.
    pub c_classical: usize,
    /// Where the classical part of S begins.
    pub s_classical: usize,
}

impl Method {
    /// A NIST point is byte 4 and two coordinates, nothing else; other values have any bytes.
    pub(crate) fn c_lead_is_good(&self, c: &[u8]) -> bool {
        !self.nist || c.get(self.c_classical) == Some(&4)
    }

    pub(crate) fn s_lead_is_good(&self, s: &[u8]) -> bool {
        !self.nist || s.get(self.s_classical) == Some(&4)
    }
}

/// A row in which C and S have one length and no KEM part.
const fn classical(name: &'static [u8], len: usize, x_len: usize, nist: bool, digest_len: usize) -> Method {
    Method {
        name,
        c_len: len,
        s_len: len,
        x_len,
        digest_len,
        hybrid: false,
        zero_check: !nist,
        nist,
        c_classical: 0,
        s_classical: 0,
    }
}

static METHODS: [Method; 9] = [
    classical(b"curve25519-sha256", 32, 32, false, 32),
    classical(b"curve25519-sha256@libssh.org", 32, 32, false, 32),
    classical(b"curve448-sha512", 56, 56, false, 64),
    classical(b"ecdh-sha2-nistp256", 65, 32, true, 32),
    classical(b"ecdh-sha2-nistp384", 97, 48, true, 48),
    classical(b"ecdh-sha2-nistp521", 133, 66, true, 64),
    Method {
        name: b"mlkem768nistp256-sha256",
        c_len: 1249,
        s_len: 1153,
        x_len: 32,
        digest_len: 32,
        hybrid: true,
        zero_check: false,
        nist: true,
        c_classical: 1184,
        s_classical: 1088,
    },
    Method {
        name: b"mlkem1024nistp384-sha384",
        c_len: 1665,
        s_len: 1665,
        x_len: 48,
        digest_len: 48,
        hybrid: true,
        zero_check: false,
        nist: true,
        c_classical: 1568,
        s_classical: 1568,
    },
    Method {
        name: b"mlkem768x25519-sha256",
        c_len: 1216,
        s_len: 1120,
        x_len: 32,
        digest_len: 32,
        hybrid: true,
        zero_check: true,
        nist: false,
        c_classical: 1184,
        s_classical: 1088,
    },
];

/// The row of a method number, 1 to 9.
pub fn method(number: u8) -> Option<&'static Method> {
    METHODS.get(usize::from(number).checked_sub(1)?)
}

/// The number of the method of this name, 0 with none.
pub fn method_number(name: &[u8]) -> u8 {
    (1..).zip(&METHODS).find(|(_, row)| row.name == name).map_or(0, |(number, _)| number)
}
