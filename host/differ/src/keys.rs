//! Keys on both, one thing at a time: every letter and every length, in outputs that are too short, just long enough and longer, in every
//! method and role; complete exchanges of which one byte, one length, K's length or the session is another; and identifiers of every hash's
//! length. After each call its number, every byte of the output, and the exchange, which stays.
use crate::calls::{complete, k_lens, COUNTS, DIGESTS, ID_LENS, METHODS};
use crate::codecs::hex;
use crate::fence::Fence;
use crate::model::derived;
use crate::random::Random;
use crate::stored::{bytes_of, EXCHANGE};
use crate::tally::Tally;
use castulfrisa::raw;
use plain::{Exchange, Method, KEY_MOST};

const LETTERS: std::ops::RangeInclusive<u64> = 65..=70;
/// Numbers of which a byte or 32 bits would be a letter or a length.
const WIDE: [u64; 7] = [256, 256 + 65, 1 << 16 | 70, 1 << 32 | 65, 1 << 63 | 16, u64::MAX - 63, u64::MAX];

/// What the core is lent, each at a fence, and how many calls were compared.
#[derive(Default)]
pub struct Lent {
    exchange: Fence,
    key: Fence,
    ahead: bool,
    pub count: u64,
}

impl Lent {
    /// One key on both; the first difference, told.
    fn both(&mut self, exchange: &[u8], letter: u64, length: u64, room: usize, tally: &mut Tally) -> Result<(), String> {
        self.ahead = !self.ahead;
        self.count += 1;
        let filled = vec![self.count as u8; room];
        self.exchange.lend(exchange, self.ahead);
        self.key.lend(&filled, !self.ahead);
        let number = raw::derive(self.exchange.bytes(), letter, length, self.key.bytes_mut());
        tally.note("derive", number);
        let mut key = filled;
        let want = derived(exchange, letter, length, &mut key);
        let what = if number != want {
            format!("the core gives {}, plain Rust {}", number, want)
        } else if self.key.bytes() != key {
            format!("the output differs:\nthe core      {}\nplain Rust    {}", hex(self.key.bytes()), hex(&key))
        } else if self.exchange.bytes() != exchange {
            "the exchange was written to".into()
        } else {
            return Ok(());
        };
        Err(format!("letter {}, length {}, an output of {} bytes, on {}: {}", letter, length, room, hex(exchange), what))
    }

    /// One key of 100 bytes, and one whose letter is none: of what does not fit both are 1.
    fn judged(&mut self, exchange: &[u8], tally: &mut Tally) -> Result<(), String> {
        self.both(exchange, 67, 100, 130, tally)?;
        self.both(exchange, 97, 0, 0, tally)
    }
}

/// Letters, lengths and outputs on an exchange.
fn asked(core: &mut Lent, e: &[u8], tally: &mut Tally) -> Result<(), String> {
    for letter in (0..=255).chain(WIDE) {
        for length in [0, 1, 16, 64, KEY_MOST as u64, KEY_MOST as u64 + 1, u64::MAX] {
            core.both(e, letter, length, length.min(200) as usize, tally)?;
        }
    }
    for length in (0..=130).chain([255, 256]).chain(WIDE) {
        let held = length.min(300) as usize;
        for letter in LETTERS {
            for room in [0, held.saturating_sub(1), held, held + 1, held + 40] {
                core.both(e, letter, length, room, tally)?;
            }
        }
    }
    Ok(())
}

/// Exchanges of which one thing is another, from one that is complete.
fn changed(core: &mut Lent, e: &Exchange, m: &Method, tally: &mut Tally) -> Result<(), String> {
    let bytes = bytes_of(e);
    // any byte: those of K, of H and of the identifier are in the key, those behind them are not, and those of lengths may fit again
    for at in 0..EXCHANGE {
        for by in [1, 2, 0x80, 0xff] {
            let mut other = bytes;
            other[at] ^= by;
            core.judged(&other, tally)?;
        }
    }
    // mark, stage, fail number, role, method
    for at in 0..5 {
        for to in 0..=255 {
            let mut other = bytes;
            other[at] = to;
            core.judged(&other, tally)?;
        }
    }
    let (least, most) = k_lens(m);
    for len in (0..=80).chain([255, 256 + least as u32, 256 + most as u32, 1 << 16 | most as u32, 1 << 24 | most as u32, u32::MAX - 3, u32::MAX]) {
        let mut other = *e;
        other.k[..4].copy_from_slice(&len.to_be_bytes());
        core.judged(&bytes_of(&other), tally)?;
    }
    for (i, most) in [253, 253, 4096, 4096, 2048, m.c_len, m.s_len].into_iter().enumerate() {
        for len in [0, 1, 2, most - 1, most, most + 1, most + 256, 0x8000, 0xffff] {
            let mut other = *e;
            other.lens[i] = len;
            core.judged(&bytes_of(&other), tally)?;
        }
    }
    for completed in COUNTS {
        for id_len in ID_LENS {
            let mut other = *e;
            (other.session.completed, other.session.id_len) = (completed, id_len as usize);
            core.judged(&bytes_of(&other), tally)?;
        }
    }
    let longer = [&bytes[..], &bytes].concat();
    for len in (0..=EXCHANGE + 2).chain([2 * EXCHANGE]) {
        core.judged(&longer[..len], tally)?;
    }
    Ok(())
}

pub fn edges(core: &mut Lent, tally: &mut Tally) -> Result<(), String> {
    let mut r = Random::new(105, 1);
    for method in 1..=METHODS as u8 {
        let m = plain::method(method).expect("a method");
        for role in [1, 2] {
            let e = complete(&mut r, role, method);
            asked(core, &bytes_of(&e), tally)?;
            changed(core, &e, m, tally)?;
            // K from its shortest to its longest, each in every letter
            let (least, most) = k_lens(m);
            for len in least..=most {
                let mut e = complete(&mut r, role, method);
                e.k[..4].copy_from_slice(&(len as u32).to_be_bytes());
                e.session.id_len = DIGESTS[len % DIGESTS.len()];
                for letter in LETTERS {
                    core.both(&bytes_of(&e), letter, KEY_MOST as u64, KEY_MOST, tally)?;
                }
            }
            // the identifier in each length that there is, with each of its bytes and of those behind it another
            for id_len in DIGESTS {
                let mut e = complete(&mut r, role, method);
                e.session.id_len = id_len;
                for at in 0..e.session.id.len() {
                    e.session.id[at] ^= 1 << (at % 8);
                    core.both(&bytes_of(&e), 70, KEY_MOST as u64, KEY_MOST, tally)?;
                }
            }
        }
    }
    Ok(())
}
