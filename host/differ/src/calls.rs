//! Random calls of an exchange: mostly the one that is due, often with one thing wrong, now and then any other, or a number wider
//! than any that there is; between them rooms that somebody wrote to, rooms of another length, and exchanges with a byte changed,
//! with another session, of another length, made up as a whole, or put back from an older copy. A complete one often begins again.
use crate::random::Random;
use crate::stored::{exchange_of, EXCHANGE};
use plain::{Exchange, Session, Stage, COMPLETED_MOST, H, KEY_MOST, K_RECORD};
use std::ops::Range;

/// How many methods there are; the wrapper's list is held to the header.
pub const METHODS: usize = castulfrisa::Method::ALL.len();

/// Bytes that repeat: what an output or a room holds before it is lent.
#[derive(Clone, Debug)]
pub struct Filled {
    pub with: [u8; 3],
    pub len: usize,
}

impl Filled {
    pub fn bytes(&self) -> Vec<u8> {
        let mut v = self.with.repeat(self.len / 3 + 1);
        v.truncate(self.len);
        v
    }
}

/// A number in the exchange's bytes.
#[derive(Clone, Copy, Debug)]
pub enum Field {
    Mark,
    Stage,
    Fail,
    Role,
    Method,
    Length(usize),
    K(usize),
    H(usize),
    IdLen,
    Completed,
    Id(usize),
}

#[derive(Clone, Debug)]
pub enum Call {
    /// A room lent anew.
    Room(Filled),
    /// Somebody writes into the room.
    Poke(usize, Vec<u8>),
    /// Somebody writes into the exchange.
    Forge(Field, u64),
    /// Somebody writes another session into the exchange.
    Session(Session),
    /// Other bytes lent for the exchange, of any length.
    Lend(Vec<u8>),
    /// An exchange that no steps made.
    Record(Exchange),
    /// The exchange becomes what it was after an earlier call of the list, and where `room` the room does too.
    Old { copy: usize, room: bool },
    Start { role: u64, method: u64, vc: Vec<u8>, vs: Vec<u8>, ic: Vec<u8>, is: Vec<u8> },
    OwnC { c: Vec<u8>, out: Filled },
    Init(Vec<u8>),
    Reply(Vec<u8>),
    Secret { given: u64, x_count: u64, x: Vec<u8>, kem: u64, k_pq: Vec<u8>, ks: Vec<u8>, s: Vec<u8> },
    Sign { signature: Vec<u8>, out: Filled, k_out: Filled },
    Verdict { signature: u64, host_key: u64, k_out: Filled },
    Again { method: u64, ic: Vec<u8>, is: Vec<u8> },
    Derive { letter: u64, length: u64, key: Filled },
}

/// A number that a byte or 32 bits of it would mean: `n` with something above them.
pub fn widened(r: &mut Random, n: u64) -> u64 {
    n | r.of(&[1 << 8, 1 << 16, 1 << 32, 1 << 63, u64::MAX << 8, u64::MAX << 32])
}

/// A yes, 1, or any of what is none.
pub fn yes_or_no(r: &mut Random, yes: bool) -> u64 {
    match (yes, r.below(4)) {
        (true, _) => 1,
        (_, 0) => r.of(&[2, 3, 128, 255]),
        (_, 1) => widened(r, 1),
        _ => 0,
    }
}

/// A length at or beside an edge, or somewhere between.
fn sized(r: &mut Random, least: usize, most: usize) -> usize {
    match r.below(16) {
        0 => least,
        1 => most,
        2 => most - 1,
        _ => r.range(least, most.min(least + 80)),
    }
}

pub fn filled(r: &mut Random, len: usize) -> Filled {
    Filled { with: [r.byte(), r.byte(), r.byte()], len }
}

/// An output: long enough, or now and then too short.
fn output(r: &mut Random, least: usize) -> Filled {
    let len = match r.below(16) {
        0 => least - 1,
        1 => r.below(least),
        2..=4 => r.range(least, least + 100),
        _ => least,
    };
    filled(r, len)
}

/// A room: long enough, or now and then too short.
pub fn room(r: &mut Random) -> Filled {
    let len = match r.below(32) {
        0 => plain::ROOM - 1,
        1 => r.below(plain::ROOM),
        2..=8 => r.range(plain::ROOM, plain::ROOM + 200),
        _ => plain::ROOM,
    };
    filled(r, len)
}

fn version(r: &mut Random) -> Vec<u8> {
    let n = sized(r, 1, 253);
    let mut v: Vec<u8> = r.bytes(n);
    for b in &mut v {
        while matches!(*b, 0 | 10 | 13) {
            *b = r.byte();
        }
    }
    if r.once_in(60) {
        match r.below(3) {
            0 => v.clear(),
            1 => v.resize(254, b'v'),
            _ => {
                let i = r.below(v.len());
                v[i] = r.of(&[0, 10, 13]);
            }
        }
    }
    v
}

fn kexinit(r: &mut Random) -> Vec<u8> {
    let n = sized(r, 1, 4096);
    let mut v = r.bytes(n);
    v[0] = 20;
    if r.once_in(60) {
        match r.below(3) {
            0 => v.clear(),
            1 => v.resize(4097, 1),
            _ => v[0] = r.byte(),
        }
    }
    v
}

/// A public value of a method's form; the classical part of a NIST method begins with 4.
fn value(r: &mut Random, len: usize, classical: usize, nist: bool) -> Vec<u8> {
    let mut v = r.bytes(len);
    if nist {
        v[classical] = 4;
    }
    if r.once_in(24) {
        match r.below(5) {
            0 => v.clear(),
            1 => v.push(0),
            2 => {
                v.pop();
            }
            3 => v[classical] = r.byte(),
            _ => {
                let n = r.of(&[31, 32, 33, 56, 65, 97, 133, 1216, 1249, 1665]);
                v = r.bytes(n);
            }
        }
    }
    v
}

fn c_value(r: &mut Random, method: u8) -> Vec<u8> {
    match plain::method(method) {
        Some(m) => value(r, m.c_len, m.c_classical, m.nist),
        None => r.bytes(32),
    }
}

fn s_value(r: &mut Random, method: u8) -> Vec<u8> {
    match plain::method(method) {
        Some(m) => value(r, m.s_len, m.s_classical, m.nist),
        None => r.bytes(32),
    }
}

/// A host key or signature.
fn blob(r: &mut Random) -> Vec<u8> {
    let n = match r.below(100) {
        0 => 0,
        1 => 2049,
        _ => sized(r, 1, 2048),
    };
    r.bytes(n)
}

fn string(v: &mut Vec<u8>, body: &[u8]) {
    v.extend_from_slice(&(body.len() as u32).to_be_bytes());
    v.extend_from_slice(body);
}

/// Breaks a message in one of its fields, in each as often as in another: cuts it at the field's border or beside it, or, of a string, has
/// its length pass the end. `begins` has where the fields begin, `strings` which of them are strings.
pub fn broken(r: &mut Random, v: &mut Vec<u8>, begins: &[usize], strings: Range<usize>) {
    let i = r.below(begins.len());
    let (from, to) = (begins[i], begins.get(i + 1).copied().unwrap_or(v.len()));
    let ahead = (v.len() - from - 1) as u32;
    match r.below(6) {
        0 => v.truncate(from),
        1 => v.truncate(to.min(from + r.range(2, 4)) - 1),
        2 | 3 if strings.contains(&i) => {
            // by one byte, by some, or so that it wraps where 4 is added in 32 bits
            let len = r.of(&[ahead - 2, ahead, 0x8000_0000, 0xffff_fffd, 0xffff_ffff]);
            v[from..from + 4].copy_from_slice(&len.to_be_bytes());
        }
        4 => v.truncate(to - 1),
        _ => v.truncate(r.range(from, to - 1)),
    }
}

/// A message, or one with something wrong; `begins` has where its fields, all of them strings, begin.
fn damaged(r: &mut Random, mut v: Vec<u8>, begins: &[usize]) -> Vec<u8> {
    if !r.once_in(5) {
        return v;
    }
    match r.below(12) {
        0 => v.clear(),
        1 => v.resize(32_769, 0),
        2 => v[0] = r.byte(),
        3 => {
            let n = r.below(v.len());
            v.truncate(n);
        }
        4 => {
            let n = r.range(1, 8);
            v.extend(r.bytes(n));
        }
        5 => {
            // lengths that wrap where 4 is added in 32 bits, or pass the end by little
            let n = r.of(&[0xffff_fffd, 0xffff_ffff, 0x8000_0000, v.len() as u32 - 5, v.len() as u32 - 4, 0]);
            if v.len() >= 5 {
                v[1..5].copy_from_slice(&n.to_be_bytes());
            }
        }
        6 => {
            let i = r.below(v.len().min(80));
            v[i] ^= 1 << r.below(8);
        }
        7 => {
            let i = r.below(v.len());
            v[i] = r.byte();
        }
        8 => {
            let n = r.below(64);
            v = r.bytes(n);
        }
        _ => broken(r, &mut v, begins, 0..begins.len()),
    }
    v
}

/// A message of these strings, or one with something wrong.
fn message(r: &mut Random, number: u8, bodies: &[Vec<u8>]) -> Vec<u8> {
    let (mut v, mut begins) = (vec![number], Vec::new());
    for body in bodies {
        begins.push(v.len());
        string(&mut v, body);
    }
    damaged(r, v, &begins)
}

fn init(r: &mut Random, method: u8) -> Vec<u8> {
    let c = c_value(r, method);
    message(r, 30, &[c])
}

fn reply(r: &mut Random, method: u8) -> Vec<u8> {
    let bodies = [blob(r), s_value(r, method), blob(r)];
    message(r, 31, &bodies)
}

/// X: any number, often with leading zeros, sometimes nothing but zeros.
fn x_value(r: &mut Random, len: usize) -> Vec<u8> {
    let mut x = r.bytes(len);
    match r.below(10) {
        0 => x.fill(0),
        1..=4 => {
            let most = if r.coin() { 2 } else { len };
            let zeros = r.range(1, most);
            x[..zeros].fill(0);
            if zeros < len && r.coin() {
                x[zeros] = r.of(&[1, 0x7f, 0x80, 0xff]);
            }
        }
        5 => x[0] = r.of(&[0x7f, 0x80, 0xff]),
        _ => {}
    }
    x
}

fn secret(r: &mut Random, role: u8, method: u8) -> Call {
    let (x_len, hybrid) = plain::method(method).map_or((32, false), |m| (m.x_len, m.hybrid));
    let mut x = x_value(r, x_len);
    let (mut given, mut x_count) = (1, x_len as u64);
    let mut kem = if hybrid { 2 } else { 0 };
    if r.once_in(10) {
        given = yes_or_no(r, false);
        if r.coin() {
            let n = r.below(40);
            x = r.bytes(n);
            x_count = r.word();
        }
    }
    if hybrid && r.once_in(10) {
        kem = 1;
    }
    let mut k_pq = if kem == 2 { r.bytes(plain::K_PQ) } else { Vec::new() };
    let (mut ks, mut s) = (blob(r), s_value(r, method));
    if role == 1 && r.coin() {
        ks.clear();
        s.clear();
    }
    if r.once_in(6) {
        match r.below(7) {
            0 => {
                given = 1;
                x_count = r.of(&[0, 31, 32, 33, 48, 56, 66, x_len as u64 | 1 << 32, u64::MAX]);
            }
            1 => {
                let n = r.of(&[0, 31, 33, 48, 56, 66]);
                x = r.bytes(n);
            }
            2 => {
                kem = r.of(&[0, 1, 2, 3, 255]);
                if r.coin() {
                    kem = widened(r, kem);
                }
            }
            3 => {
                let n = r.of(&[0, 1, 31, 32, 33, 48, 64]);
                k_pq = r.bytes(n);
            }
            4 => ks.clear(),
            // K_PQ goes by the KEM, though the classical primitive failed
            5 if hybrid => {
                (given, kem) = (yes_or_no(r, false), 2);
                k_pq = if r.coin() { Vec::new() } else { r.bytes(plain::K_PQ) };
            }
            _ => s.push(0),
        }
    }
    Call::Secret { given, x_count, x, kem, k_pq, ks, s }
}

/// A beginning again: mostly one that may be, in another method or in the same.
fn again(r: &mut Random, running: u8) -> Call {
    let mut method = if r.once_in(4) { running.into() } else { r.range(1, METHODS) as u64 };
    match r.below(24) {
        0 => method = r.of(&[0, 10, 11, 255, 257]),
        1 => method = widened(r, method),
        _ => {}
    }
    let (mut ic, mut is) = (kexinit(r), kexinit(r));
    if r.once_in(12) {
        let bad = if r.coin() { &mut ic } else { &mut is };
        match r.below(3) {
            0 => bad.clear(),
            1 => bad.resize(4097, 20),
            _ => bad.splice(..1.min(bad.len()), [r.of(&[0, 19, 21, 30, 20 | 128])]).for_each(drop),
        }
    }
    Call::Again { method, ic, is }
}

/// Counts of completed exchanges at the edges and beside them.
pub const COUNTS: [u64; 10] =
    [0, 1, 2, 65_536, COMPLETED_MOST - 1, COMPLETED_MOST, COMPLETED_MOST + 1, COMPLETED_MOST + 2, 1 << 63 | 1, u64::MAX];
/// Lengths of an identifier, likewise, and some of which a byte would do.
pub const ID_LENS: [u64; 14] = [0, 1, 31, 32, 33, 47, 48, 49, 63, 64, 65, 256 + 32, 0x8000 | 64, 65_535];
/// Those that there are.
pub const DIGESTS: [usize; 3] = [32, 48, 64];

/// A session that somebody writes: mostly with a count at an edge, and with a length that goes with it.
fn session(r: &mut Random) -> Session {
    let completed = match r.below(8) {
        0 => r.word(),
        1 => r.of(&COUNTS),
        2 | 3 => COMPLETED_MOST,
        4 | 5 => COMPLETED_MOST - 1,
        _ => r.below(3) as u64,
    };
    let id_len = match completed {
        _ if r.once_in(6) => r.of(&ID_LENS) as usize,
        0 => 0,
        _ => r.of(&DIGESTS),
    };
    Session { id: any_h(r), id_len, completed }
}

fn any_h(r: &mut Random) -> [u8; H] {
    let mut h = [0; H];
    h.copy_from_slice(&r.bytes(H));
    h
}

/// Where keys' lengths end a hash's digest, and what ciphers and MACs want.
const KEY_LENGTHS: [u64; 16] = [1, 12, 16, 20, 31, 32, 33, 47, 48, 49, 63, 64, 65, 96, 97, 128];

/// A key: mostly one that there is, in an output that is long enough.
fn derive(r: &mut Random) -> Call {
    let (mut letter, mut length) = (r.range(65, 70) as u64, r.of(&KEY_LENGTHS));
    match r.below(16) {
        0 => letter = r.byte().into(),
        1 => letter = r.of(&[0, 64, 71, 97, 102, 255]),
        2 => letter = widened(r, letter),
        3 => length = r.of(&[0, 129, 130, 255, 256]),
        4 => length = widened(r, length),
        5..=7 => length = r.range(1, KEY_MOST) as u64,
        _ => {}
    }
    // as long as a length that is none, too
    let held = length.min(2 * KEY_MOST as u64) as usize;
    let len = match r.below(16) {
        0 => held.saturating_sub(1),
        1 => r.below(held + 1),
        2..=6 => r.range(held, held + 100),
        _ => held,
    };
    Call::Derive { letter, length, key: filled(r, len) }
}

/// The shortest and the longest body of K that a method has.
pub fn k_lens(m: &plain::Method) -> (usize, usize) {
    match m.hybrid {
        true => (m.digest_len, m.digest_len),
        false => (usize::from(m.zero_check), m.x_len + 1),
    }
}

/// A complete exchange that no steps made, of this method, with any K, H and session.
pub fn complete(r: &mut Random, role: u8, method: u8) -> Exchange {
    let m = plain::method(method).expect("a method");
    let (least, most) = k_lens(m);
    let (v_c, v_s) = (sized(r, 1, 253), sized(r, 1, 253));
    let (i_c, i_s, k_s) = (sized(r, 1, 4096), sized(r, 1, 4096), sized(r, 1, 2048));
    let mut k = [0; K_RECORD];
    k.copy_from_slice(&r.bytes(K_RECORD));
    let h = any_h(r);
    let completed = match r.below(4) {
        0 => r.of(&[COMPLETED_MOST - 1, COMPLETED_MOST]),
        1 => r.word() >> 32 | 1,
        _ => r.range(1, 3) as u64,
    };
    let session = Session { id: any_h(r), id_len: r.of(&DIGESTS), completed };
    let len = if r.coin() { most } else { r.range(least, most) };
    k[..4].copy_from_slice(&(len as u32).to_be_bytes());
    Exchange { role, method, stage: Stage::Complete, lens: [v_c, v_s, i_c, i_s, k_s, m.c_len, m.s_len], k, h, session }
}

/// One, often with one thing that does not fit.
fn record(r: &mut Random) -> Call {
    let (role, method) = (r.range(1, 2) as u8, r.range(1, METHODS) as u8);
    let mut e = complete(r, role, method);
    match r.below(15) {
        0 => e.role = r.of(&[0, 3, 255]),
        1 => e.method = r.below(12) as u8,
        2 => e.method = r.byte(),
        3 => e.stage = r.of(&[Stage::Started, Stage::OwnC, Stage::Init, Stage::Reply, Stage::Secret, Stage::Failed(0), Stage::Failed(18)]),
        4 | 5 => {
            let i = r.below(7);
            e.lens[i] = r.of(&[0, 1, 32, 56, 65, 97, 133, 253, 254, 1120, 1216, 2048, 2049, 4096, 4097, 0xffff]);
        }
        6 => {
            let i = r.range(5, 6);
            e.lens[i] = (e.lens[i] + 2 * r.below(2)).wrapping_sub(1);
        }
        7 => e.k[3] = r.below(80) as u8,
        8 => e.k[r.below(3)] = r.byte(),
        9 => e.session = session(r),
        _ => {}
    }
    Call::Record(e)
}

/// How many `step` makes.
const STEPS: usize = 8;

/// The step with this number: own C, INIT, REPLY, secret, signature, verdict; or a key, or a beginning again.
fn step(r: &mut Random, which: usize, role: u8, method: u8) -> Call {
    match which {
        0 => Call::OwnC { c: c_value(r, method), out: output(r, plain::INIT_OUT) },
        1 => Call::Init(init(r, method)),
        2 => Call::Reply(reply(r, method)),
        3 => secret(r, role, method),
        4 => Call::Sign { signature: blob(r), out: output(r, plain::REPLY_OUT), k_out: output(r, plain::K_RECORD) },
        6 => derive(r),
        7 => again(r, method),
        _ => {
            let no = r.once_in(6);
            let which = r.below(3);
            let (signature, host_key) = (yes_or_no(r, !(no && which != 0)), yes_or_no(r, !(no && which != 1)));
            Call::Verdict { signature, host_key, k_out: output(r, plain::K_RECORD) }
        }
    }
}

pub fn start(r: &mut Random) -> Call {
    let (mut role, mut method) = (r.range(1, 2) as u64, r.range(1, METHODS) as u64);
    match r.below(80) {
        0 => role = r.of(&[0, 3, 255]),
        1 => role = widened(r, role),
        2 => method = r.of(&[0, 10, 11, 255]),
        3 => method = widened(r, method),
        _ => {}
    }
    Call::Start { role, method, vc: version(r), vs: version(r), ic: kexinit(r), is: kexinit(r) }
}

fn forge(r: &mut Random) -> Call {
    let field = match r.below(13) {
        0 => Field::Role,
        1 => Field::Method,
        2 => Field::Stage,
        3 => Field::Fail,
        4 => Field::K(r.below(4)),
        5 => Field::K(r.below(71)),
        6 => Field::Mark,
        7 => Field::H(r.below(64)),
        8 => Field::IdLen,
        9 => Field::Completed,
        10 => Field::Id(r.below(64)),
        _ => Field::Length(r.below(7)),
    };
    let to = match field {
        Field::Mark => r.of(&[0, 1, 2, 4, 131, 255]),
        Field::Role => r.of(&[0, 1, 2, 3, 255]),
        Field::Method => r.below(12) as u64,
        Field::Stage => r.of(&[0, 1, 2, 3, 4, 5, 6, 7, 8, 255]),
        Field::Fail => r.of(&[0, 0, 1, 16, 255]),
        Field::K(_) => r.of(&[0, 1, 4, 32, 33, 36, 37, 255]),
        Field::H(_) | Field::Id(_) => r.byte().into(),
        Field::IdLen => r.of(&ID_LENS),
        Field::Completed => r.of(&COUNTS),
        Field::Length(_) => r.of(&[
            0, 1, 2, 32, 56, 65, 97, 133, 253, 254, 1120, 1216, 2048, 2049, 4096, 4097, 14_156, 0x7fff, 0xfffc, 0xffff,
        ]),
    };
    Call::Forge(field, to)
}

/// Bytes lent for an exchange: too few, too many, or as many as one has and any of them.
fn other_bytes(r: &mut Random, now: &[u8]) -> Call {
    let mut bytes = now.to_vec();
    match r.below(4) {
        0 => bytes = r.bytes(EXCHANGE),
        1 => {
            bytes.pop();
        }
        2 => bytes.push(r.byte()),
        _ => bytes.resize(r.of(&[0, 1, 19, 90, 154, 180, 4096]), 0),
    }
    Call::Lend(bytes)
}

/// How many calls a list has, and whether its host is careful: those are long, and seldom does anybody interfere.
pub fn length(r: &mut Random) -> (usize, bool) {
    match r.once_in(40) {
        true => (r.range(14, 32), true),
        false => (r.range(2, 11), false),
    }
}

/// Somebody writes over a few bytes of the room, up to `within`.
fn poke(r: &mut Random, within: usize) -> Call {
    let n = r.range(1, 12).min(within);
    let at = r.below(within - n + 1);
    Call::Poke(at, if r.once_in(4) { vec![r.of(&[0, 10, 13]); n] } else { r.bytes(n) })
}

/// What may come between two exchanges of a session: V's or a room that somebody changed, a count at its end.
fn between(r: &mut Random, e: &Exchange, room_len: usize) -> Option<Call> {
    let versions = 8 + e.lens[0] + e.lens[1];
    match r.below(24) {
        0 if (1..=room_len).contains(&versions) => Some(poke(r, versions)),
        1 => Some(Call::Room(filled(r, plain::ROOM - 1))),
        2 => Some(Call::Forge(Field::Completed, r.of(&[COMPLETED_MOST - 1, COMPLETED_MOST]))),
        _ => None,
    }
}

/// The next call of a list, where these bytes are lent for the exchange, a room of this length, and so many older copies are kept.
pub fn next(r: &mut Random, exchange: &[u8], room_len: usize, kept: usize, careful: bool) -> Call {
    if kept > 0 && r.once_in(if careful { 40 } else { 5 }) {
        return Call::Old { copy: r.below(kept), room: r.coin() };
    }
    let e = match exchange_of(exchange) {
        Some(e) => e,
        // mostly out of it again: what no exchange has is refused until a start, and another length is there too
        None if exchange.len() != EXCHANGE && r.coin() => return Call::Lend(r.bytes(EXCHANGE)),
        None if r.coin() => return start(r),
        None => Exchange { role: r.range(1, 2) as u8, method: r.range(1, METHODS) as u8, ..Exchange::default() },
    };
    match r.below(if careful { 512 } else { 64 }) {
        0 => return forge(r),
        1 => return start(r),
        2 if room_len > 0 => {
            // half of them where the first fields stand
            let within = if r.coin() { room_len } else { room_len.min(800) };
            return poke(r, within);
        }
        3 => return Call::Room(room(r)),
        4 => return other_bytes(r, exchange),
        5 => return record(r),
        6..=11 => {
            let which = r.below(STEPS);
            return step(r, which, e.role, e.method);
        }
        12 => return Call::Session(session(r)),
        _ => {}
    }
    // a host that is careful lends enough
    if careful && room_len < plain::ROOM && r.coin() {
        return Call::Room(filled(r, plain::ROOM));
    }
    let due = match (e.stage, e.role) {
        (Stage::Started, 1) => 0,
        (Stage::Started, _) => 1,
        (Stage::OwnC, _) => 2,
        (Stage::Init, _) | (Stage::Reply, _) => 3,
        (Stage::Secret, 2) => 4,
        (Stage::Secret, _) => 5,
        (Stage::Complete, _) => {
            if let Some(call) = between(r, &e, room_len) {
                return call;
            }
            match r.below(8) {
                0..=3 => 6,
                4..=6 => 7,
                _ => r.below(STEPS),
            }
        }
        _ => r.below(STEPS),
    };
    step(r, due, e.role, e.method)
}
