//! Where INIT, REPLY and KEXINIT break (SPECIFICATION 2.7): every cut, every length that says too much, and all that has no position.

use plain::*;

const CLIENT: u8 = 1;
const SERVER: u8 = 2;
const INIT: u8 = 30;
const REPLY: u8 = 31;
const KEXINIT: u8 = 20;

/// A message as the fields that stand behind its number; a string with its length bytes.
#[derive(Clone)]
struct Message {
    number: u8,
    fields: Vec<Vec<u8>>,
}

impl Message {
    fn payload(&self) -> Vec<u8> {
        [vec![self.number], self.fields.concat()].concat()
    }

    /// Where each field begins, and behind them where the last one ends.
    fn borders(&self) -> Vec<usize> {
        let mut at = 1;
        let mut borders = vec![at];
        for field in &self.fields {
            at += field.len();
            borders.push(at);
        }
        borders
    }

    /// Which of its fields are strings: all, but for a KEXINIT's first and its last two.
    fn strings(&self) -> std::ops::Range<usize> {
        if self.number == KEXINIT {
            1..11
        } else {
            0..self.fields.len()
        }
    }

    /// Where the field begins of which so many of its bytes have not all, or none.
    fn cut_at(&self, len: usize) -> usize {
        let borders = self.borders();
        *borders.iter().rev().find(|&&border| border <= len).unwrap()
    }
}

fn string(body: &[u8]) -> Vec<u8> {
    [&(body.len() as u32).to_be_bytes(), body].concat()
}

fn init(c: &[u8]) -> Message {
    Message { number: INIT, fields: vec![string(c)] }
}

fn reply(k_s: &[u8], s: &[u8], signature: &[u8]) -> Message {
    Message { number: REPLY, fields: vec![string(k_s), string(s), string(signature)] }
}

/// Some of its lists have no byte; where `bare`, none has one.
fn kexinit(bare: bool) -> Message {
    let full: [&[u8]; 10] = [b"a,bc", b"d", b"", b"", b"efg", b"h", b"", b"i", b"j", b"k,l"];
    let lists = if bare { [&b""[..]; 10] } else { full };
    let mut fields = vec![vec![7; 16]];
    fields.extend(lists.map(string));
    fields.extend([vec![1], vec![0, 0, 0, 9]]);
    Message { number: KEXINIT, fields }
}

/// An exchange that waits for INIT or for REPLY, and its room.
fn waiting(message: u8, method: u8, room: usize) -> (Exchange, Vec<u8>) {
    let mut all = vec![9; ROOM];
    let role = if message == INIT { SERVER } else { CLIENT };
    let mut e = start(role, method, b"c", b"s", &[20], &[20], &mut all).exchange;
    if role == CLIENT {
        e = own_c(e, &mut all, &value(method, true), &mut [0; INIT_OUT]).exchange;
    }
    all.resize(room, 9);
    (e, all)
}

fn value(number: u8, of_client: bool) -> Vec<u8> {
    let row = method(number).unwrap();
    vec![4; if of_client { row.c_len } else { row.s_len }]
}

/// Number and position that a payload is answered with by the reader of a message.
fn read(message: u8, method: u8, payload: &[u8]) -> (u8, usize) {
    if message == KEXINIT {
        let opened = open_list(payload, 1);
        // which list it is opened for has no say
        assert!((2..=10).all(|list| open_list(payload, list).position == opened.position));
        return (opened.number, opened.position);
    }
    let (e, mut room) = waiting(message, method, ROOM);
    let answer = match message {
        INIT => read_init(e, &mut room, payload),
        _ => read_reply(e, &mut room, payload),
    };
    (answer.number, answer.position)
}

fn messages(method: u8) -> Vec<Message> {
    let (c, s) = (value(method, true), value(method, false));
    vec![init(&c), reply(b"host key", &s, b"signature"), kexinit(false), kexinit(true)]
}

#[test]
fn a_cut_is_told_where_its_field_begins() {
    for method in [1, 4, 9] {
        for message in messages(method) {
            let whole = message.payload();
            for len in 1..whole.len() {
                let (number, position) = read(message.number, method, &whole[..len]);
                assert_eq!((number, position), (12, message.cut_at(len)), "{} bytes of {}", len, message.number);
            }
            assert_eq!(read(message.number, method, &whole), (0, 0));
            // no byte of a field: its beginning is the payload's length
            for &border in &message.borders()[..message.fields.len()] {
                assert_eq!(read(message.number, method, &whole[..border]), (12, border));
            }
        }
    }
    // by their places: boolean and reserved number are two fields
    let bare = kexinit(true).payload();
    let cut = [(1, 1), (2, 1), (16, 1), (17, 17), (20, 17), (21, 21), (56, 53), (57, 57), (58, 58), (61, 58)];
    for (len, position) in cut {
        assert_eq!(read(KEXINIT, 1, &bare[..len]), (12, position));
    }
}

#[test]
fn a_length_that_says_too_much_is_told_where_it_stands() {
    for message in messages(1) {
        let (whole, borders) = (message.payload(), message.borders());
        for field in message.strings() {
            let at = borders[field];
            let ahead = whole.len() - at - 4;
            for len in [ahead + 1, ahead + 2, 0x8000_0000, 0xffff_fffc, 0xffff_fffd, 0xffff_ffff] {
                let mut payload = whole.clone();
                payload[at..at + 4].copy_from_slice(&(len as u32).to_be_bytes());
                assert_eq!(read(message.number, 1, &payload), (12, at), "field {field} of {}", message.number);
                // also where nothing follows it
                payload.truncate(at + 4);
                assert_eq!(read(message.number, 1, &payload), (12, at));
            }
        }
    }
}

#[test]
fn what_is_left_over_is_told_by_its_first_byte() {
    for message in messages(1) {
        let whole = message.payload();
        for more in [1, 2, 4, 5, 300] {
            let payload = [&whole[..], &vec![0; more]].concat();
            assert_eq!(read(message.number, 1, &payload), (13, whole.len()));
        }
    }
    // 12 and 13 ahead of 14, so also where a length is none that is allowed
    let short = init(&[1; 31]).payload();
    assert_eq!(read(INIT, 1, &[&short[..], &[0]].concat()), (13, short.len()));
    let bare = reply(b"", b"", b"").payload();
    assert_eq!(read(REPLY, 1, &[&bare[..], &[0]].concat()), (13, 13));
    assert_eq!(read(REPLY, 1, &bare[..12]), (12, 9));
}

#[test]
fn no_other_number_has_a_position() {
    let longest = |first: u8, len: usize| [vec![first], vec![0; len - 1]].concat();
    for message in [INIT, REPLY] {
        let other = INIT + REPLY - message;
        assert_eq!(read(message, 1, &[]), (10, 0));
        assert_eq!(read(message, 1, &longest(message, 32_769)), (10, 0));
        assert_eq!(read(message, 1, &[other]), (11, 0));
    }
    assert_eq!(read(KEXINIT, 1, &[]), (10, 0));
    assert_eq!(read(KEXINIT, 1, &longest(KEXINIT, 4097)), (10, 0));
    assert_eq!(read(KEXINIT, 1, &[21]), (11, 0));
    assert_eq!(read(INIT, 1, &init(&[4; 31]).payload()), (14, 0));
    assert_eq!(read(INIT, 4, &init(&[3; 65]).payload()), (15, 0));
    for (k_s, s, signature, number) in [(0, 65, 1, 14), (1, 64, 1, 14), (1, 65, 0, 14), (2049, 65, 1, 14)] {
        let payload = reply(&vec![1; k_s], &vec![4; s], &vec![1; signature]).payload();
        assert_eq!(read(REPLY, 4, &payload), (number, 0));
    }
    assert_eq!(read(REPLY, 4, &reply(b"k", &[3; 65], b"g").payload()), (15, 0));

    // a list that there is not, ahead of all that is wrong with the payload
    for payload in [&[][..], &[20], &kexinit(true).payload()[..40], &longest(KEXINIT, 4097)] {
        for list in [0, 11, usize::MAX] {
            let opened = open_list(payload, list);
            assert_eq!((opened.number, opened.position), (4, 0));
        }
    }
}

/// What is not due and a room that is too short come ahead of the payload: no position for either.
#[test]
fn a_step_that_is_refused_ahead_of_its_payload_has_no_position() {
    for message in messages(1).into_iter().filter(|message| message.number != KEXINIT) {
        let whole = message.payload();
        for len in 0..=whole.len() {
            for room in [0, 1, ROOM - 1] {
                let (e, mut room) = waiting(message.number, 1, room);
                let short = Answer { number: 3, exchange: e, ..Answer::default() };
                assert_eq!(read_at(message.number, e, &mut room, &whole[..len]), short);
            }
            // the other role's, another stage's, and one that failed
            let (e, mut room) = waiting(message.number, 1, ROOM);
            for e in [
                Exchange { role: 3 - e.role, ..e },
                Exchange { stage: Stage::Secret, ..e },
                Exchange { stage: Stage::Failed(12), ..e },
                Exchange { method: 0, ..e },
            ] {
                let early = Answer { number: 1, exchange: e, ..Answer::default() };
                assert_eq!(read_at(message.number, e, &mut room, &whole[..len]), early);
            }
        }
    }
}

fn read_at(message: u8, e: Exchange, room: &mut [u8], payload: &[u8]) -> Answer {
    if message == INIT {
        read_init(e, room, payload)
    } else {
        read_reply(e, room, payload)
    }
}

/// A fault keeps its number and not its position; the calls for a part have none to tell.
#[test]
fn a_record_does_not_keep_a_position() {
    let (e, mut room) = waiting(REPLY, 1, ROOM);
    let whole = reply(b"k", &[2; 32], b"g").payload();
    assert_eq!(reply_parts(&e, &room, &whole[..20]), [Part::default(); 3]);
    let answer = read_reply(e, &mut room, &whole[..20]);
    let failed = Exchange { role: CLIENT, method: 1, stage: Stage::Failed(12), ..Exchange::default() };
    assert_eq!(answer, Answer { number: 12, position: 6, exchange: failed, ..Answer::default() });
    let again = read_reply(answer.exchange, &mut room, &whole[..20]);
    assert_eq!(again, Answer { number: 1, exchange: failed, ..Answer::default() });
}

/// How many whole fields fill these bytes, which stand behind the message's number; none where they do not fill them.
fn whole_fields(message: u8, mut bytes: &[u8]) -> Option<usize> {
    for count in 0.. {
        if bytes.is_empty() {
            return Some(count);
        }
        bytes = bytes.get(field_len(message, count, bytes)?..)?;
    }
    None
}

/// The bytes that the field after so many others has, as far as it says itself; none where there is no such field, or its
/// length bytes are not there.
fn field_len(message: u8, count: usize, bytes: &[u8]) -> Option<usize> {
    match (message, count) {
        (KEXINIT, 0) => Some(16),
        (KEXINIT, 11) => Some(1),
        (KEXINIT, 12) => Some(4),
        (INIT, 1) | (REPLY, 3) | (KEXINIT, 13) => None,
        _ => Some(4 + u32::from_be_bytes(*bytes.first_chunk()?) as usize),
    }
}

/// SPECIFICATION 2.7.4, by its words alone: whether a position may be told with a number.
fn may_be_told(message: u8, number: u8, payload: &[u8], position: usize) -> bool {
    let Some(ahead) = payload.get(1..position).and_then(|ahead| whole_fields(message, ahead)) else {
        return false;
    };
    let all = [(INIT, 1), (REPLY, 3), (KEXINIT, 13)].iter().find(|of| of.0 == message).unwrap().1;
    let behind = &payload[position..];
    match number {
        12 => ahead < all && field_len(message, ahead, behind).is_none_or(|len| len > behind.len()),
        _ => ahead == all && !behind.is_empty(),
    }
}

/// Numbers without order, the same in every run.
struct Shuffle(u64);

impl Shuffle {
    fn below(&mut self, limit: usize) -> usize {
        self.0 ^= self.0 << 13;
        self.0 ^= self.0 >> 7;
        self.0 ^= self.0 << 17;
        (self.0 % limit as u64) as usize
    }
}

#[test]
fn there_is_no_other_position() {
    let mut any = Shuffle(0x2545_f491_4f6c_dd1d);
    let mut seen = [0; 16];
    for turn in 0..3_000 {
        let mut message = messages(1).swap_remove(turn % 4);
        // short strings of any length, so that what is behind one is read as another's length too
        for field in message.strings() {
            message.fields[field] = string(&vec![0; any.below(6)]);
        }
        let mut payload = message.payload();
        let at = 1 + any.below(payload.len() - 1);
        match any.below(4) {
            0 => payload.truncate(at),
            1 => payload.extend(vec![0; any.below(9)]),
            2 => payload[at] = any.below(9) as u8,
            _ => payload[at] = any.below(256) as u8,
        }
        let (number, position) = read(message.number, 1, &payload);
        seen[usize::from(number)] += 1;
        let told: Vec<usize> = (0..=payload.len() + 1)
            .flat_map(|at| [(12, at), (13, at)])
            .filter(|&(number, at)| may_be_told(message.number, number, &payload, at))
            .map(|(of, at)| if of == number { at } else { usize::MAX })
            .collect();
        match number {
            12 | 13 => assert_eq!(told, [position], "{payload:?}"),
            _ => assert_eq!((told, position), (vec![], 0), "{payload:?}"),
        }
    }
    assert!([0, 12, 13, 14].iter().all(|&number| seen[number] > 50), "{seen:?}");
}
