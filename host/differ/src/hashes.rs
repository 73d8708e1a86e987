//! Hashes on both: starts, parts and digests in lists, between them states that somebody wrote to in every field, buffers of other
//! lengths and kinds that there are not; after each call its number and every byte of state, digest and part.
use crate::calls::widened;
use crate::codecs::hex;
use crate::fence::Fence;
use crate::random::Random;
use crate::tally::Tally;
use castulfrisa::raw;
use plain::{Hash, HASH_BYTES, HASH_MOST};
use std::ops::Range;

/// Where the fields of a state stand in its bytes.
const TOTAL: Range<usize> = 1..9;
const HELD: Range<usize> = 9..17;
const VALUE: Range<usize> = 17..81;
const TAIL: Range<usize> = 81..HASH_BYTES;

pub const KINDS: [(u64, usize); 3] = [(32, 64), (48, 128), (64, 128)];

#[derive(Clone, Debug)]
pub enum Call {
    Start(u64),
    Feed(Vec<u8>),
    Finish,
    /// Somebody writes into the state; past its end nothing is written.
    Forge(usize, Vec<u8>),
    /// Other bytes lent for it, of any length.
    Lend(Vec<u8>),
}

/// The plain implementation behind the boundary: a buffer of another length is answered 4 and stays.
pub struct Side {
    pub hash: Vec<u8>,
    pub digest: [u8; plain::DIGEST],
}

impl Default for Side {
    fn default() -> Side {
        Side { hash: vec![0; HASH_BYTES], digest: [0; plain::DIGEST] }
    }
}

/// Somebody's hand in a state.
fn forge(hash: &mut [u8], at: usize, bytes: &[u8]) {
    if let Some(place) = hash.get_mut(at..at + bytes.len()) {
        place.copy_from_slice(bytes);
    }
}

impl Side {
    pub fn state(&self) -> Option<Hash> {
        Some(Hash::of(self.hash[..].try_into().ok()?))
    }

    pub fn call(&mut self, call: &Call) -> u64 {
        self.digest = [0; plain::DIGEST];
        match (call, self.state()) {
            (Call::Forge(at, bytes), _) => forge(&mut self.hash, *at, bytes),
            (Call::Lend(bytes), _) => self.hash.clone_from(bytes),
            (_, None) => return 4,
            (Call::Start(kind), _) => {
                let (number, hash) = plain::hash_start(u8::try_from(*kind).unwrap_or(0));
                self.hash.copy_from_slice(&hash.bytes());
                return number.into();
            }
            (Call::Feed(part), Some(mut hash)) => {
                let number = hash.feed(part);
                self.hash.copy_from_slice(&hash.bytes());
                return number.into();
            }
            (Call::Finish, Some(hash)) => {
                let (number, digest) = hash.finish();
                self.digest = digest;
                return number.into();
            }
        }
        0
    }
}

/// What the core is lent, each at a fence.
#[derive(Default)]
pub struct Lent {
    hash: Fence,
    part: Fence,
    digest: Fence,
    ahead: bool,
}

impl Lent {
    fn call(&mut self, call: &Call, tally: &mut Tally) -> u64 {
        let ahead = self.ahead;
        let (name, number) = match call {
            Call::Start(kind) => ("hash_start", raw::hash_start(self.hash.bytes_mut(), *kind)),
            Call::Feed(part) => ("hash_feed", raw::hash_feed(self.hash.bytes_mut(), self.part.lend(part, ahead))),
            Call::Finish => {
                self.digest.lend(&[0xa5; plain::DIGEST], !ahead);
                ("hash_finish", raw::hash_finish(self.hash.bytes(), self.digest.array()))
            }
            Call::Forge(at, bytes) => {
                forge(self.hash.bytes_mut(), *at, bytes);
                return 0;
            }
            Call::Lend(bytes) => {
                self.hash.lend(bytes, ahead);
                return 0;
            }
        };
        tally.note(name, number);
        number
    }
}

/// What a run must have tried, beside the numbers: each is counted, and none may be 0.
const TRIED: [&str; 17] = [
    "parts of no bytes, accepted",
    "parts that fill no block",
    "parts that fill one, and leave nothing",
    "parts that fill one, and leave something",
    "parts that fill several",
    "parts up to 65,535 bytes in all",
    "parts up to 65,536",
    "parts up to 65,537, refused",
    "digests of 65,536 bytes",
    "digests with a second block of padding",
    "states with another kind refused",
    "with a total that does not fit",
    "with a number of waiting bytes that does not",
    "states with any value, accepted",
    "with any tail",
    "buffers of another length refused",
    "kinds above 255",
];

#[derive(Default)]
pub struct Tried {
    counts: [u64; TRIED.len()],
    /// Which fields somebody wrote to since the last start: kind, total, held, value, tail.
    forged: [bool; 5],
}

impl Tried {
    fn add(&mut self, at: usize, when: bool) {
        self.counts[at] += when as u64;
    }

    /// A call, the state ahead of it and the number that it got.
    fn note(&mut self, call: &Call, state: Option<Hash>, number: u64) {
        let accepted = number == 0;
        match call {
            Call::Start(kind) => {
                self.forged = [false; 5];
                self.add(16, *kind > 255);
            }
            Call::Forge(at, _) => {
                let field = [1, TOTAL.end, HELD.end, VALUE.end, TAIL.end].iter().position(|end| at < end);
                self.forged[field.expect("a field")] = true;
                return;
            }
            Call::Lend(_) => return,
            _ => {}
        }
        let Some(hash) = state else { return self.add(15, !accepted) };
        if matches!(call, Call::Start(_)) {
            return;
        }
        for field in 0..3 {
            self.add(10 + field, self.forged[field] && !accepted);
        }
        for field in 3..5 {
            self.add(10 + field, self.forged[field] && accepted);
        }
        let block = if hash.kind == 32 { 64 } else { 128 };
        match call {
            Call::Feed(part) if accepted => {
                let filled = hash.held as usize + part.len();
                self.add(0, part.is_empty());
                self.add(1, !part.is_empty() && filled < block);
                self.add(2, !part.is_empty() && filled == block);
                self.add(3, filled > block && filled < 2 * block);
                self.add(4, filled >= 2 * block);
                self.add(5, !part.is_empty() && hash.total + part.len() as u64 == HASH_MOST - 1);
                self.add(6, !part.is_empty() && hash.total + part.len() as u64 == HASH_MOST);
            }
            Call::Feed(part) => self.add(7, hash.total.checked_add(part.len() as u64) == Some(HASH_MOST + 1)),
            _ => {
                self.add(8, accepted && hash.total == HASH_MOST);
                self.add(9, accepted && hash.held as usize >= block - block / 8);
            }
        }
    }

    /// Prints what was tried; false where something never was.
    pub fn print(&self) -> bool {
        for (what, count) in TRIED.iter().zip(self.counts) {
            println!("{:>9} {}", count, what);
        }
        self.counts.iter().all(|count| *count > 0)
    }
}

/// One call on both; the first difference, told.
fn both(call: &Call, core: &mut Lent, model: &mut Side, tally: &mut Tally, tried: &mut Tried) -> Result<(), String> {
    let ahead = model.state();
    let number = core.call(call, tally);
    let want = model.call(call);
    tried.note(call, ahead, number);
    let what = if number != want {
        format!("the core gives {}, plain Rust {}", number, want)
    } else if core.hash.bytes() != model.hash {
        format!("the state differs:\nthe core      {}\nplain Rust    {}", hex(core.hash.bytes()), hex(&model.hash))
    } else if matches!(call, Call::Finish) && core.digest.bytes() != model.digest {
        format!("the digest differs:\nthe core      {}\nplain Rust    {}", hex(core.digest.bytes()), hex(&model.digest))
    } else if matches!(call, Call::Feed(part) if core.part.bytes() != part) {
        "the part was written to".into()
    } else {
        return Ok(());
    };
    Err(format!("{:?} on {:?}: {}", call, ahead, what))
}

/// A part's length: at or beside what fills a block, at or beside the limit, or any.
fn part_len(r: &mut Random, hash: Option<Hash>) -> usize {
    let (block, held, total) = match hash {
        Some(h) => (if h.kind == 32 { 64 } else { 128 }, h.held.min(127) as usize, h.total),
        None => (64, 0, 0),
    };
    let rest = HASH_MOST.saturating_sub(total) as usize;
    match r.below(32) {
        0 => 0,
        1..=3 => r.of(&[1, 55, 56, 57, 63, 64, 65, 111, 112, 113, 127, 128, 129]),
        4..=12 => (block * r.range(1, 3) + r.below(3)).saturating_sub(held + 1),
        // what fills up to the limit only where it is not far
        13..=20 if rest <= 300 => (rest + r.below(3)).saturating_sub(1),
        21 if r.once_in(40) => r.of(&[HASH_MOST as usize - 1, HASH_MOST as usize, HASH_MOST as usize + 1]),
        _ => r.below(300),
    }
}

fn kind(r: &mut Random) -> u64 {
    let (kind, _) = r.of(&KINDS);
    match r.below(24) {
        0 => r.of(&[0, 1, 31, 33, 47, 49, 63, 65, 128, 255]),
        1 => r.byte().into(),
        2 => widened(r, kind),
        _ => kind,
    }
}

/// A number of eight bytes in a state.
fn number(at: usize, n: u64) -> Call {
    Call::Forge(at, n.to_be_bytes().to_vec())
}

fn forged(r: &mut Random, hash: &Hash) -> Call {
    let block = if hash.kind == 32 { 64 } else { 128 };
    match r.below(16) {
        0 => Call::Forge(0, vec![r.of(&[0, 1, 31, 32, 33, 48, 49, 63, 64, 65, 255])]),
        1 => Call::Forge(0, vec![r.byte()]),
        2 => {
            let edge = [0, 1, hash.held, HASH_MOST - 1, HASH_MOST, HASH_MOST + 1, HASH_MOST + block, 1 << 32 | hash.total, u64::MAX];
            number(TOTAL.start, r.of(&edge))
        }
        3 => number(TOTAL.start, hash.total.wrapping_add(r.of(&[1, 32, 64, 128, 1 << 63, u64::MAX, u64::MAX - 63, u64::MAX - 127]))),
        // by whole blocks, up to the limit: it fits
        4 | 5 => {
            let blocks = HASH_MOST.saturating_sub(hash.held % block) / block;
            let some = if r.coin() { blocks } else { r.below(blocks as usize + 1) as u64 };
            number(TOTAL.start, some * block + hash.held % block)
        }
        6 => number(HELD.start, r.of(&[0, 1, 63, 64, 65, 127, 128, 129, 1 << 32 | hash.held, u64::MAX])),
        7 => number(HELD.start, hash.held.wrapping_add(r.of(&[1, block, u64::MAX]))),
        // both, to a pair that fits
        8 | 9 => {
            let total = if r.coin() { HASH_MOST - r.below(3) as u64 } else { r.below(HASH_MOST as usize + 1) as u64 };
            let mut bytes = total.to_be_bytes().to_vec();
            bytes.extend((total % block).to_be_bytes());
            Call::Forge(TOTAL.start, bytes)
        }
        10 => Call::Forge(VALUE.start, r.bytes(VALUE.len())),
        11 => Call::Forge(VALUE.start + r.below(VALUE.len()), vec![r.byte()]),
        12 => Call::Forge(TAIL.start, r.bytes(TAIL.len())),
        13 => Call::Forge(TAIL.start + r.below(TAIL.len()), vec![r.byte()]),
        // behind the waiting bytes alone
        _ => {
            let from = TAIL.start + (hash.held as usize).min(TAIL.len() - 1);
            Call::Forge(from, r.bytes(TAIL.end - from))
        }
    }
}

/// The next call of a list on a state like this.
pub fn next(r: &mut Random, side: &Side) -> Call {
    let state = side.state();
    match (r.below(24), &state) {
        (0..=2, _) => Call::Start(kind(r)),
        (3, _) => {
            let mut bytes = side.hash.clone();
            bytes.resize(r.of(&[0, 1, 16, HASH_BYTES - 1, HASH_BYTES + 1, 2 * HASH_BYTES, 4096]), 7);
            Call::Lend(bytes)
        }
        (4, _) => Call::Lend(r.bytes(HASH_BYTES)),
        // mostly out of it again
        (5..=12, None) => Call::Lend(r.bytes(HASH_BYTES)),
        (5..=8, Some(hash)) => forged(r, hash),
        (9..=13, _) => Call::Finish,
        _ => {
            let len = part_len(r, state);
            Call::Feed(r.bytes(len))
        }
    }
}

/// One list, from a state that fits nothing.
pub fn list(seed: u64, index: u64, core: &mut Lent, tally: &mut Tally, tried: &mut Tried) -> Result<(), String> {
    let mut r = Random::new(seed ^ 0x5a2, index);
    let mut model = Side::default();
    core.ahead = r.coin();
    core.hash.lend(&model.hash, core.ahead);
    for i in 0..r.range(4, 20) {
        let call = if i == 0 { Call::Start(kind(&mut r)) } else { next(&mut r, &model) };
        both(&call, core, &mut model, tally, tried).map_err(|e| format!("seed {}, hash {}, call {}: {}", seed, index, i, e))?;
    }
    Ok(())
}

/// A part of every length up to two blocks and one byte, on every number of bytes that may wait; and 65,535, 65,536 and 65,537
/// bytes in all. Kinds that there are not, one by one.
pub fn edges(core: &mut Lent, tally: &mut Tally, tried: &mut Tried) -> Result<(), String> {
    let mut model = Side::default();
    let mut r = Random::new(1, 1);
    let message = r.bytes(HASH_MOST as usize + 1);
    core.hash.lend(&model.hash, false);
    let mut all = |calls: &[Call]| -> Result<(), String> {
        core.ahead = !core.ahead;
        core.hash.lend(&model.hash, core.ahead);
        calls.iter().try_for_each(|call| both(call, core, &mut model, tally, tried))
    };
    let fed = |range: Range<usize>| Call::Feed(message[range].to_vec());
    for (kind, block) in KINDS {
        for waits in 0..block {
            for len in 0..2 * block + 2 {
                all(&[Call::Start(kind), fed(0..waits), fed(waits..waits + len), Call::Finish])?;
            }
        }
        let most = HASH_MOST as usize;
        all(&[Call::Start(kind), fed(0..most - 1), Call::Finish, fed(0..2), fed(most - 1..most), Call::Finish, fed(0..0), fed(0..1)])?;
        all(&[Call::Start(kind), fed(0..most + 1), fed(0..most), fed(0..1), Call::Finish])?;
    }
    for kind in (0..=255).chain([256, 256 + 32, 1 << 32 | 48, 1 << 63 | 64, u64::MAX]) {
        all(&[Call::Start(kind), fed(0..3), Call::Finish])?;
    }
    Ok(())
}
