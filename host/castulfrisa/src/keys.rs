//! The six keys of RFC 4253, section 7.2, which a complete exchange derives.
use crate::raw;
use crate::KEY_MOST;
use core::fmt;

/// A key by its letter, A to F.
#[derive(Clone, Copy, Debug, PartialEq, Eq)]
pub enum Letter {
    IvC2s = 65,
    IvS2c = 66,
    CipherKeyC2s = 67,
    CipherKeyS2c = 68,
    MacKeyC2s = 69,
    MacKeyS2c = 70,
}

impl Letter {
    pub const ALL: [Letter; 6] =
        [Letter::IvC2s, Letter::IvS2c, Letter::CipherKeyC2s, Letter::CipherKeyS2c, Letter::MacKeyC2s, Letter::MacKeyS2c];

    /// The letter of a number, 65 to 70.
    pub fn of(number: u64) -> Option<Letter> {
        Letter::ALL.into_iter().find(|letter| letter.number() == number)
    }

    pub fn number(self) -> u64 {
        self as u64
    }
}

/// A key. It is lent to `derive`, which writes it where it stands, and wipes itself when it is dropped. A move of a key that was derived leaves
/// its bytes where it stood: derive it where it is to stay, or box it.
///
/// ```compile_fail,E0599
/// let key = castulfrisa::Key::new();
/// let copy = key.clone();
/// ```
///
/// ```compile_fail,E0277
/// let key = castulfrisa::Key::new();
/// println!("{}", key);
/// ```
pub struct Key {
    bytes: [u8; KEY_MOST],
    len: usize,
}

impl Key {
    /// A place for a key: none so far.
    pub const fn new() -> Key {
        Key { bytes: [0; KEY_MOST], len: 0 }
    }

    /// The key; nothing before `derive` wrote one.
    pub fn as_bytes(&self) -> &[u8] {
        &self.bytes[..self.len]
    }

    /// A key of so many bytes by the core, whose number this is. What stood behind them of a longer key is wiped; on a refusal the key is as
    /// it was.
    pub(crate) fn derived(&mut self, exchange: &[u8], letter: Letter, length: usize) -> u64 {
        let number = raw::derive(exchange, letter.number(), length as u64, &mut self.bytes);
        if number == 0 {
            raw::wipe(&mut self.bytes[length..]);
            self.len = length;
        }
        number
    }
}

impl Default for Key {
    fn default() -> Key {
        Key::new()
    }
}

impl fmt::Debug for Key {
    // without a byte of it
    fn fmt(&self, f: &mut fmt::Formatter<'_>) -> fmt::Result {
        f.debug_struct("Key").finish_non_exhaustive()
    }
}

impl Drop for Key {
    fn drop(&mut self) {
        raw::wipe(&mut self.bytes);
    }
}
