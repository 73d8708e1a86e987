//! An exchange as the bytes that a host lends: the mark 3, stage, fail number, role and method a byte each; the lengths of V_C,
//! V_S, I_C, I_S, K_S, C and S, two bytes each, the high one first; the 71 bytes of K's record; the 64 of H; and of the session its
//! identifier's length, two bytes, how many exchanges were completed, eight, and the identifier's 64.
use crate::calls::Field;
use plain::{Exchange, Session, Stage, K_RECORD};

pub const EXCHANGE: usize = ID + plain::H;
pub const MARK: u8 = 3;
const LENGTHS: usize = 5;
const K: usize = LENGTHS + 2 * 7;
const H: usize = K + K_RECORD;
const ID_LEN: usize = H + plain::H;
const COMPLETED: usize = ID_LEN + 2;
const ID: usize = COMPLETED + 8;

/// The exchange in lent bytes; none where no exchange has them.
pub fn exchange_of(bytes: &[u8]) -> Option<Exchange> {
    let bytes: &[u8; EXCHANGE] = bytes.try_into().ok()?;
    let [mark, stage, fail, role, method, ..] = *bytes;
    let stage = match (mark, stage, fail) {
        (MARK, 0, 0) => Stage::Started,
        (MARK, 1, 0) => Stage::OwnC,
        (MARK, 2, 0) => Stage::Init,
        (MARK, 3, 0) => Stage::Reply,
        (MARK, 4, 0) => Stage::Secret,
        (MARK, 5, 0) => Stage::Complete,
        (MARK, 6, number) => Stage::Failed(number),
        _ => return None,
    };
    let two = |at: usize| usize::from(u16::from_be_bytes([bytes[at], bytes[at + 1]]));
    let (mut k, mut h, mut completed, mut id) = ([0; K_RECORD], [0; plain::H], [0; 8], [0; plain::H]);
    k.copy_from_slice(&bytes[K..H]);
    h.copy_from_slice(&bytes[H..ID_LEN]);
    completed.copy_from_slice(&bytes[COMPLETED..ID]);
    id.copy_from_slice(&bytes[ID..]);
    let session = Session { id, id_len: two(ID_LEN), completed: u64::from_be_bytes(completed) };
    Some(Exchange { role, method, stage, lens: std::array::from_fn(|i| two(LENGTHS + 2 * i)), k, h, session })
}

/// The bytes of an exchange, whose lengths, the identifier's too, are below 65,536.
pub fn bytes_of(e: &Exchange) -> [u8; EXCHANGE] {
    let (stage, fail) = numbers_of(e.stage);
    let mut bytes = [0; EXCHANGE];
    bytes[..LENGTHS].copy_from_slice(&[MARK, stage, fail, e.role, e.method]);
    for (two, len) in bytes[LENGTHS..K].chunks_exact_mut(2).zip(e.lens) {
        two.copy_from_slice(&of_two_bytes(len));
    }
    bytes[K..H].copy_from_slice(&e.k);
    bytes[H..ID_LEN].copy_from_slice(&e.h);
    put_session(&mut bytes, &e.session);
    bytes
}

fn of_two_bytes(len: usize) -> [u8; 2] {
    u16::try_from(len).expect("a length of two bytes").to_be_bytes()
}

/// Somebody's session in the bytes; where there are fewer nothing changes.
pub fn put_session(bytes: &mut [u8], session: &Session) {
    if let Some(place) = bytes.get_mut(ID_LEN..EXCHANGE) {
        place[..2].copy_from_slice(&of_two_bytes(session.id_len));
        place[2..10].copy_from_slice(&session.completed.to_be_bytes());
        place[10..].copy_from_slice(&session.id);
    }
}

/// A stage's number, and the number that ended a failed exchange.
pub fn numbers_of(stage: Stage) -> (u8, u8) {
    match stage {
        Stage::Started => (0, 0),
        Stage::OwnC => (1, 0),
        Stage::Init => (2, 0),
        Stage::Reply => (3, 0),
        Stage::Secret => (4, 0),
        Stage::Complete => (5, 0),
        Stage::Failed(number) => (6, number),
    }
}

/// Somebody's hand in the bytes; one that reaches past their end changes nothing.
pub fn forge(bytes: &mut [u8], field: Field, to: u64) {
    let all = to.to_be_bytes();
    let [.., high, low] = all;
    let (at, new) = match field {
        Field::Mark => (0, &[low][..]),
        Field::Stage => (1, &[low][..]),
        Field::Fail => (2, &[low][..]),
        Field::Role => (3, &[low][..]),
        Field::Method => (4, &[low][..]),
        Field::Length(i) => (LENGTHS + 2 * i, &[high, low][..]),
        Field::K(i) => (K + i, &[low][..]),
        Field::H(i) => (H + i, &[low][..]),
        Field::IdLen => (ID_LEN, &[high, low][..]),
        Field::Completed => (COMPLETED, &all[..]),
        Field::Id(i) => (ID + i, &[low][..]),
    };
    if let Some(place) = bytes.get_mut(at..at + new.len()) {
        place.copy_from_slice(new);
    }
}
