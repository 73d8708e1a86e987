//! One exchange as client or server: its record, its room, its steps, and how it begins again.
//!
//! Every step judges first, in the order of the numbers, and writes only when nothing is left to refuse.

use crate::kexinit::{KEXINIT, PAYLOAD_MAX as I_MAX};
use crate::methods::{self, Method};
use crate::sha2::{hash_of, DIGEST};
use crate::wire::{put_string, string_at, Part, Refused};

/// Eight lengths, two V, two I, K_S, the longest C and S, and the K that goes with them.
pub const ROOM: usize = 32 + 506 + 8_192 + 2_048 + 3_330 + 48;
pub const INIT_OUT: usize = 1_670;
pub const REPLY_OUT: usize = 5_774;
pub const K_RECORD: usize = 71;
pub const K_PQ: usize = 32;
/// H as it is handed out, zeros after the digest.
pub const H: usize = DIGEST;
/// The most exchanges that a session counts.
pub const COMPLETED_MOST: u64 = 4_294_967_295;

const CLIENT: u8 = 1;
const SERVER: u8 = 2;
const INIT: u8 = 30;
const REPLY: u8 = 31;
const V_MAX: usize = 253;
const K_S_MAX: usize = 2_048;
const SIGNATURE_MAX: usize = 2_048;
const PAYLOAD_MAX: usize = 32_768;
const FIRST_PEER_FAULT: u8 = 10;

/// `OwnC`: the client's C went out. `Init`: the server read INIT. `Reply`: the client read REPLY. `Secret`: the secret
/// step is done. A failed exchange keeps the number that ended it.
#[derive(Clone, Copy, PartialEq, Eq, Debug)]
pub enum Stage {
    Started,
    OwnC,
    Init,
    Reply,
    Secret,
    Complete,
    Failed(u8),
}

impl Default for Stage {
    fn default() -> Self {
        Stage::Failed(0)
    }
}

/// What a record keeps of all the exchanges of its history: zeros until one is complete.
#[derive(Clone, Copy, PartialEq, Eq, Debug)]
pub struct Session {
    /// The session identifier: the first completed H, zeros after its digest with it.
    pub id: [u8; H],
    /// The length of that digest; a later exchange may have another.
    pub id_len: usize,
    /// How many exchanges were completed.
    pub completed: u64,
}

impl Default for Session {
    fn default() -> Self {
        Session { id: [0; H], id_len: 0, completed: 0 }
    }
}

impl Session {
    /// Whether the count goes with the stage and the identifier's length with the count. A complete exchange was counted;
    /// one that is not must still be countable.
    fn fits(&self, stage: Stage) -> bool {
        let count_is_good = match stage {
            Stage::Complete => (1..=COMPLETED_MOST).contains(&self.completed),
            _ => self.completed < COMPLETED_MOST,
        };
        // which method came first is not recorded, so any digest's length will do
        let id_len_is_good = if self.completed == 0 { self.id_len == 0 } else { matches!(self.id_len, 32 | 48 | 64) };
        count_is_good && id_len_is_good
    }
}

/// The record of an exchange. The bytes of its fields stand in the room, found by the recorded lengths.
#[derive(Clone, Copy, PartialEq, Eq, Debug)]
pub struct Exchange {
    pub role: u8,
    pub method: u8,
    pub stage: Stage,
    /// V_C, V_S, I_C, I_S, K_S, C, S; 0 where the field is missing.
    pub lens: [usize; 7],
    /// K with its four length bytes and zeros after its end; all zeros until the secret step.
    pub k: [u8; K_RECORD],
    /// H with zeros after the digest; all zeros until the secret step.
    pub h: [u8; H],
    /// Only a start forgets it.
    pub session: Session,
}

impl Default for Exchange {
    fn default() -> Self {
        Exchange {
            role: 0,
            method: 0,
            stage: Stage::default(),
            lens: [0; 7],
            k: [0; K_RECORD],
            h: [0; H],
            session: Session::default(),
        }
    }
}

#[derive(Clone, Copy, PartialEq, Eq, Debug)]
pub struct Answer {
    pub number: u8,
    pub count: usize,
    /// K's length at the signature step, which counts REPLY first.
    pub second: usize,
    /// H at the secret step, all zeros on a refusal.
    pub h: [u8; H],
    /// Where INIT or REPLY breaks, with 12 and 13.
    pub position: usize,
    pub exchange: Exchange,
}

impl Default for Answer {
    fn default() -> Self {
        Answer { number: 0, count: 0, second: 0, h: [0; H], position: 0, exchange: Exchange::default() }
    }
}

/// The classical primitive either failed or gave a stated number of bytes.
#[derive(Clone, Copy, PartialEq, Eq, Debug)]
pub enum Classical {
    Failed,
    Given(usize),
}

#[derive(Clone, Copy, PartialEq, Eq, Debug)]
pub enum Kem {
    Absent,
    Failed,
    Done,
}

fn accepted(count: usize, exchange: Exchange) -> Answer {
    Answer { count, exchange, ..Answer::default() }
}

/// A refusal that is no peer fault: nothing changes.
fn unchanged(number: u8, exchange: Exchange) -> Answer {
    Answer { number, exchange, ..Answer::default() }
}

/// A peer fault fills the whole room, the K record and H with zeros and fails the exchange for good, recorded lengths 0.
/// What the session has stays.
fn refused(number: u8, e: Exchange, room: &mut [u8]) -> Answer {
    if number < FIRST_PEER_FAULT {
        return unchanged(number, e);
    }
    room.fill(0);
    let stage = Stage::Failed(number);
    unchanged(number, Exchange { role: e.role, method: e.method, stage, session: e.session, ..Exchange::default() })
}

fn v_len_is_good(len: usize) -> bool {
    (1..=V_MAX).contains(&len)
}

fn i_len_is_good(len: usize) -> bool {
    (1..=I_MAX).contains(&len)
}

fn k_s_len_is_good(len: usize) -> bool {
    (1..=K_S_MAX).contains(&len)
}

fn signature_len_is_good(len: usize) -> bool {
    (1..=SIGNATURE_MAX).contains(&len)
}

/// The length of K's body: the first four bytes of its record.
fn k_body_len(k: &[u8; K_RECORD]) -> u32 {
    u32::from_be_bytes([k[0], k[1], k[2], k[3]])
}

/// A hybrid's K is a digest; another's is an mpint of at most X's bytes and a 0, and not zero where zero is refused.
fn k_len_is_good(row: &Method, k: &[u8; K_RECORD]) -> bool {
    let Ok(len) = usize::try_from(k_body_len(k)) else {
        return false;
    };
    if row.hybrid {
        len == row.digest_len
    } else {
        (usize::from(row.zero_check)..=row.x_len + 1).contains(&len)
    }
}

/// Whether the recorded lengths fit the stage and the method, with these no sum of them leaves the room, and the session
/// the stage. The last step leaves the lengths as the secret step did.
fn fits(e: &Exchange, row: &Method) -> bool {
    let [v_c, v_s, i_c, i_s, k_s, c, s] = e.lens;
    let rest = match e.stage {
        Stage::Started => (k_s, c, s) == (0, 0, 0),
        Stage::OwnC | Stage::Init => (k_s, c, s) == (0, row.c_len, 0),
        Stage::Reply => k_s_len_is_good(k_s) && (c, s) == (row.c_len, row.s_len),
        Stage::Secret | Stage::Complete => {
            k_s_len_is_good(k_s) && (c, s) == (row.c_len, row.s_len) && k_len_is_good(row, &e.k)
        }
        Stage::Failed(_) => false, // nothing is due
    };
    let front = v_len_is_good(v_c) && v_len_is_good(v_s) && i_len_is_good(i_c) && i_len_is_good(i_s);
    front && rest && e.session.fits(e.stage)
}

/// Judges 1, then 3: the step of this role after this stage. Anyone can set a record's fields, so one that does not
/// fit its stage is answered 1 as well.
fn due(e: &Exchange, role: u8, stage: Stage, room: &[u8]) -> Result<&'static Method, u8> {
    if e.role != role || e.stage != stage {
        return Err(1);
    }
    let row = methods::method(e.method).ok_or(1)?;
    if !fits(e, row) {
        return Err(1);
    }
    if room.len() < ROOM {
        return Err(3);
    }
    Ok(row)
}

/// Where V_C, V_S, I_C and I_S end in the room.
fn front(lens: &[usize; 7]) -> usize {
    lens[..4].iter().map(|len| 4 + len).sum()
}

/// The hash order has K_S ahead of C, which a client learns later: C moves with its length bytes as they stand, K_S
/// goes in before it and S behind it.
fn add_k_s_and_s(e: &mut Exchange, room: &mut [u8], k_s: &[u8], s: &[u8]) {
    let at = front(&e.lens);
    let c_end = at + 4 + e.lens[5];
    room.copy_within(at..c_end, at + 4 + k_s.len());
    put_string(room, at, k_s);
    put_string(room, c_end + 4 + k_s.len(), s);
    e.lens[4] = k_s.len();
    e.lens[6] = s.len();
}

fn i_is_good(i: &[u8]) -> bool {
    i_len_is_good(i.len()) && i[0] == KEXINIT
}

/// Starting checks 2, 3, 4. A refused start hands back an exchange failed with its number, role and method 0. Either way
/// a new history begins.
pub fn start(role: u8, method: u8, vc: &[u8], vs: &[u8], ic: &[u8], is: &[u8], room: &mut [u8]) -> Answer {
    let v_is_good = |v: &[u8]| v_len_is_good(v.len()) && !v.iter().any(|byte| matches!(byte, 0 | 10 | 13));

    let number = if !matches!(role, CLIENT | SERVER) || methods::method(method).is_none() {
        2
    } else if room.len() < ROOM {
        3
    } else if !(v_is_good(vc) && v_is_good(vs) && i_is_good(ic) && i_is_good(is)) {
        4
    } else {
        0
    };
    if number != 0 {
        return unchanged(number, Exchange { stage: Stage::Failed(number), ..Exchange::default() });
    }

    let mut at = 0;
    for field in [vc, vs, ic, is] {
        at = put_string(room, at, field);
    }
    let lens = [vc.len(), vs.len(), ic.len(), is.len(), 0, 0, 0];
    accepted(0, Exchange { role, method, stage: Stage::Started, lens, ..Exchange::default() })
}

/// A complete exchange begins again: the same role, any method, new I_C and I_S. Checks 1, 2, 3, 4, 23. The V's stay as
/// they stand in the room, unjudged, the I's follow them, and the bytes behind them stay.
pub fn again(e: Exchange, method: u8, ic: &[u8], is: &[u8], room: &mut [u8]) -> Answer {
    let number = if completed(&e).is_none() {
        1
    } else if methods::method(method).is_none() {
        2
    } else if room.len() < ROOM {
        3
    } else if !(i_is_good(ic) && i_is_good(is)) {
        4
    } else if e.session.completed == COMPLETED_MOST {
        23
    } else {
        0
    };
    if number != 0 {
        return unchanged(number, e);
    }

    let [v_c, v_s, ..] = e.lens;
    let mut at = 4 + v_c + 4 + v_s;
    for field in [ic, is] {
        at = put_string(room, at, field);
    }
    let lens = [v_c, v_s, ic.len(), is.len(), 0, 0, 0];
    let (role, session) = (e.role, e.session);
    accepted(0, Exchange { role, method, stage: Stage::Started, lens, session, ..Exchange::default() })
}

/// The client's own C, which writes INIT.
pub fn own_c(e: Exchange, room: &mut [u8], c: &[u8], out: &mut [u8]) -> Answer {
    let row = match due(&e, CLIENT, Stage::Started, room) {
        Ok(row) => row,
        Err(number) => return unchanged(number, e),
    };
    if c.len() != row.c_len || !row.c_lead_is_good(c) {
        return unchanged(4, e);
    }
    if out.len() < INIT_OUT {
        return unchanged(5, e);
    }
    out[0] = INIT;
    let count = put_string(out, 1, c);
    accepted(count, add_c(e, room, c, Stage::OwnC))
}

/// C goes in behind I_S, as the last field so far.
fn add_c(mut e: Exchange, room: &mut [u8], c: &[u8], stage: Stage) -> Exchange {
    put_string(room, front(&e.lens), c);
    e.lens[5] = c.len();
    e.stage = stage;
    e
}

/// Judges 10, 11, then 12 and 13 through the whole message of that many strings.
fn strings<const N: usize>(payload: &[u8], message: u8) -> Result<[Part; N], Refused> {
    if payload.is_empty() || payload.len() > PAYLOAD_MAX {
        return Err(10.into());
    }
    if payload[0] != message {
        return Err(11.into());
    }
    let mut parts = [Part::default(); N];
    let mut at = 1;
    for part in &mut parts {
        *part = string_at(payload, at).ok_or(Refused::cut(at))?;
        at = part.end();
    }
    if at != payload.len() {
        return Err(Refused::left_over(at));
    }
    Ok(parts)
}

fn judge_init(e: &Exchange, room: &[u8], payload: &[u8]) -> Result<Part, Refused> {
    let row = due(e, SERVER, Stage::Started, room)?;
    let [c] = strings(payload, INIT)?;
    if c.len != row.c_len {
        return Err(14.into());
    }
    if !row.c_lead_is_good(c.of(payload)) {
        return Err(15.into());
    }
    Ok(c)
}

/// The server reads INIT.
pub fn read_init(e: Exchange, room: &mut [u8], payload: &[u8]) -> Answer {
    match judge_init(&e, room, payload) {
        Ok(c) => accepted(0, add_c(e, room, c.of(payload), Stage::Init)),
        Err(why) => unread(why, e, room),
    }
}

/// A message that was refused, with where it breaks.
fn unread(why: Refused, e: Exchange, room: &mut [u8]) -> Answer {
    Answer { position: why.position, ..refused(why.number, e, room) }
}

/// C as a part of the payload, on the same input as the step and ahead of it; empty when that input is refused.
pub fn init_c(e: &Exchange, room: &[u8], payload: &[u8]) -> Part {
    judge_init(e, room, payload).unwrap_or_default()
}

fn judge_reply(e: &Exchange, room: &[u8], payload: &[u8]) -> Result<[Part; 3], Refused> {
    let row = due(e, CLIENT, Stage::OwnC, room)?;
    let [k_s, s, signature] = strings(payload, REPLY)?;
    if !k_s_len_is_good(k_s.len) || s.len != row.s_len || !signature_len_is_good(signature.len) {
        return Err(14.into());
    }
    if !row.s_lead_is_good(s.of(payload)) {
        return Err(15.into());
    }
    Ok([k_s, s, signature])
}

/// The client reads REPLY.
pub fn read_reply(e: Exchange, room: &mut [u8], payload: &[u8]) -> Answer {
    match judge_reply(&e, room, payload) {
        Ok([k_s, s, _]) => {
            let mut next = e;
            add_k_s_and_s(&mut next, room, k_s.of(payload), s.of(payload));
            next.stage = Stage::Reply;
            accepted(0, next)
        }
        Err(why) => unread(why, e, room),
    }
}

/// K_S, S and signature as parts of the payload, on the same input as the step and ahead of it; empty when that input
/// is refused.
pub fn reply_parts(e: &Exchange, room: &[u8], payload: &[u8]) -> [Part; 3] {
    judge_reply(e, room, payload).unwrap_or_default()
}

/// Judges what the primitives gave: 4, then 16, then 17.
///
/// A failed classical outcome exempts X alone, so the rest that could be 4 is judged for it too.
fn judge_outcomes(
    row: &Method,
    classical: Classical,
    x: &[u8],
    kem: Kem,
    k_pq: &[u8],
    own_fields_are_good: bool,
) -> Result<(), u8> {
    let x_is_good = match classical {
        Classical::Given(count) => count == row.x_len && x.len() == count,
        Classical::Failed => true, // no stated byte count, no further look at X
    };
    let kem_is_good = row.hybrid != (kem == Kem::Absent);
    // by the KEM alone, whatever the classical outcome
    let k_pq_len = if kem == Kem::Done { K_PQ } else { 0 };
    if !x_is_good || !kem_is_good || k_pq.len() != k_pq_len || !own_fields_are_good {
        return Err(4);
    }
    let x_is_zero = || x.iter().fold(0, |seen, byte| seen | byte) == 0;
    if classical == Classical::Failed || (row.zero_check && x_is_zero()) {
        return Err(16);
    }
    if kem == Kem::Failed {
        return Err(17);
    }
    Ok(())
}

/// K in its form: a hybrid's is the digest of K_PQ and then X as a string, another's is X, read as an unsigned
/// big-endian number, as an mpint. Answers the record and K's length in it.
fn k_record(row: &Method, x: &[u8], k_pq: &[u8]) -> ([u8; K_RECORD], usize) {
    let digest;
    let (body, lead) = if row.hybrid {
        digest = hash_of(row.digest_len, [k_pq, x]);
        (&digest[..row.digest_len], 0)
    } else {
        let zeros = x.iter().take_while(|&&byte| byte == 0).count();
        let body = &x[zeros..];
        (body, usize::from(body.first().is_some_and(|&high| high >= 0x80))) // a set top bit needs a 0 before it
    };
    let len = lead + body.len();
    let mut k = [0; K_RECORD];
    k[..4].copy_from_slice(&(len as u32).to_be_bytes());
    k[4 + lead..4 + len].copy_from_slice(body);
    (k, 4 + len)
}

/// The secret step, which hands out H: a server brings K_S and its own S with it; a client's are not looked at.
#[allow(clippy::too_many_arguments)]
pub fn take_secret(
    e: Exchange,
    room: &mut [u8],
    classical: Classical,
    x: &[u8],
    kem: Kem,
    k_pq: &[u8],
    ks: &[u8],
    s: &[u8],
) -> Answer {
    let (role, stage) = if e.role == CLIENT { (CLIENT, Stage::Reply) } else { (SERVER, Stage::Init) };
    let row = match due(&e, role, stage, room) {
        Ok(row) => row,
        Err(number) => return unchanged(number, e),
    };
    let own_fields_are_good =
        role == CLIENT || (k_s_len_is_good(ks.len()) && s.len() == row.s_len && row.s_lead_is_good(s));
    if let Err(number) = judge_outcomes(row, classical, x, kem, k_pq, own_fields_are_good) {
        return refused(number, e, room);
    }

    let mut next = e;
    if role == SERVER {
        add_k_s_and_s(&mut next, room, ks, s);
    }
    let (k, k_len) = k_record(row, x, k_pq);
    let at = next.lens.iter().map(|len| 4 + len).sum();
    let count = at + k_len;
    room[at..count].copy_from_slice(&k[..k_len]);
    next.k = k;
    // over the bytes that stand there, whoever wrote them
    next.h = hash_of(row.digest_len, [&room[..count], &[]]);
    next.stage = Stage::Secret;
    Answer { h: next.h, ..accepted(count, next) }
}

/// K's length in its record, its four length bytes included.
fn k_len(k: &[u8; K_RECORD]) -> usize {
    4 + k_body_len(k) as usize
}

/// Writes K in the last step: the output gets all 71 bytes of the record, and the count is K's own length in it.
fn write_k(k: &[u8; K_RECORD], k_out: &mut [u8]) -> usize {
    k_out[..K_RECORD].copy_from_slice(k);
    k_len(k)
}

/// What the last step leaves: an exchange more is counted, and the first one's H becomes the session identifier.
fn complete(e: Exchange, row: &Method) -> Exchange {
    let mut session = e.session;
    if session.completed == 0 {
        session.id = e.h;
        session.id_len = row.digest_len;
    }
    session.completed += 1; // it fits, so it is below the most
    Exchange { stage: Stage::Complete, session, ..e }
}

/// The server's signature, which writes REPLY and K. K_S and S are taken from the room as they stand there, with length
/// bytes from the recorded lengths.
pub fn sign(e: Exchange, room: &[u8], signature: &[u8], out: &mut [u8], k_out: &mut [u8]) -> Answer {
    let row = match due(&e, SERVER, Stage::Secret, room) {
        Ok(row) => row,
        Err(number) => return unchanged(number, e),
    };
    if !signature_len_is_good(signature.len()) {
        return unchanged(4, e);
    }
    if out.len() < REPLY_OUT || k_out.len() < K_RECORD {
        return unchanged(5, e);
    }
    let [.., k_s_len, c_len, s_len] = e.lens;
    let k_s = Part { start: front(&e.lens) + 4, len: k_s_len };
    let s = Part { start: k_s.end() + 4 + c_len + 4, len: s_len };
    out[0] = REPLY;
    let at = put_string(out, 1, k_s.of(room));
    let at = put_string(out, at, s.of(room));
    let count = put_string(out, at, signature);
    let second = write_k(&e.k, k_out);
    Answer { second, ..accepted(count, complete(e, row)) }
}

/// The client's verdict, two yes/no, which writes K.
pub fn verdict(e: Exchange, room: &mut [u8], signature: bool, host_key: bool, k_out: &mut [u8]) -> Answer {
    let row = match due(&e, CLIENT, Stage::Secret, room) {
        Ok(row) => row,
        Err(number) => return unchanged(number, e),
    };
    if k_out.len() < K_RECORD {
        return unchanged(5, e);
    }
    if !signature || !host_key {
        return refused(18, e, room);
    }
    let count = write_k(&e.k, k_out);
    accepted(count, complete(e, row))
}

/// What keys are derived from, as the record has it.
pub(crate) struct Completed<'a> {
    pub row: &'static Method,
    pub k: &'a [u8],
    pub h: &'a [u8],
    pub identifier: &'a [u8],
}

/// An exchange that is complete and fits.
pub(crate) fn completed(e: &Exchange) -> Option<Completed<'_>> {
    let row = methods::method(e.method)?;
    let complete = matches!(e.role, CLIENT | SERVER) && e.stage == Stage::Complete && fits(e, row);
    complete.then(|| Completed {
        row,
        k: &e.k[..k_len(&e.k)],
        h: &e.h[..row.digest_len],
        identifier: &e.session.id[..e.session.id_len],
    })
}
