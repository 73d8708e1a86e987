//! The plain implementation behind the boundary: the specification's answer to a call, told as the header says.
use crate::calls::{self, Call};
use crate::random::Random;
use crate::stored::{bytes_of, exchange_of, forge, numbers_of, put_session, EXCHANGE};
use plain::{Answer, Classical, Exchange, Kem, Part, H};

/// What a call gave, on either side: its number, what it told through lent numbers, with INIT and REPLY the position last, what the
/// calls of their own for the four parts of a payload gave (number, start and length of each), and the state and the session after it.
#[derive(Clone, Copy, Debug, Default, PartialEq)]
pub struct Given {
    pub number: u64,
    pub told: [u64; TOLD],
    pub parts: [[u64; 3]; 4],
    pub state: [u64; 5],
    pub session: [u64; 3],
}

/// The most numbers that a call tells: REPLY's.
pub const TOLD: usize = 7;

/// What is lent on the plain implementation's side.
#[derive(Default)]
pub struct Side {
    pub exchange: Vec<u8>,
    pub room: Vec<u8>,
    pub out: Vec<u8>,
    pub k_out: Vec<u8>,
    pub h: Vec<u8>,
    pub id: Vec<u8>,
    /// A room to try a step in.
    tried: Vec<u8>,
}

/// A role, a method or a letter as the plain implementation takes it: 255, which is none, where a byte cannot say it.
fn byte(n: u64) -> u8 {
    u8::try_from(n).unwrap_or(255)
}

/// The KEM's outcome for the plain implementation; a number that is none is an outcome of a wrong form, as a wrong presence is.
fn kem_of(method: u8, kem: u64) -> Kem {
    match kem {
        0 => Kem::Absent,
        1 => Kem::Failed,
        2 => Kem::Done,
        _ if plain::method(method).is_some_and(|m| m.hybrid) => Kem::Absent,
        _ => Kem::Done,
    }
}

/// A key of an exchange in lent bytes, of which those that no exchange has are answered 1.
pub fn derived(exchange: &[u8], letter: u64, length: u64, key: &mut [u8]) -> u64 {
    exchange_of(exchange).map_or(1, |e| plain::derive(&e, byte(letter), length as usize, key).into())
}

/// A reader's parts, and the position behind them.
fn told(parts: &[Part], position: usize) -> [u64; TOLD] {
    let mut all = [0; TOLD];
    for (two, part) in all.chunks_exact_mut(2).zip(parts) {
        two.copy_from_slice(&[part.start as u64, part.len as u64]);
    }
    all[2 * parts.len()] = position as u64;
    all
}

impl Side {
    /// An exchange that failed with 0, as in bytes that nobody started one in, and no room.
    pub fn new() -> Side {
        Side { exchange: bytes_of(&Exchange::default()).to_vec(), ..Side::default() }
    }

    /// Copies of an exchange's bytes and of a room.
    pub fn at(exchange: &[u8], room: &[u8]) -> Side {
        Side { exchange: exchange.to_vec(), room: room.to_vec(), ..Side::default() }
    }

    /// Lends the outputs of a call afresh, and does what is no call of the core: a room or an exchange lent, or somebody's hand
    /// in them.
    fn before(&mut self, call: &Call) {
        self.out.clear();
        self.k_out.clear();
        self.h.clear();
        match call {
            Call::Room(f) => self.room = f.bytes(),
            Call::Poke(at, bytes) => self.room[*at..at + bytes.len()].copy_from_slice(bytes),
            Call::Forge(field, to) => forge(&mut self.exchange, *field, *to),
            Call::Session(session) => put_session(&mut self.exchange, session),
            Call::Lend(bytes) => self.exchange.clone_from(bytes),
            Call::Record(e) => self.exchange = bytes_of(e).to_vec(),
            Call::OwnC { out, .. } | Call::Derive { key: out, .. } => self.out = out.bytes(),
            Call::Sign { out, k_out, .. } => {
                self.out = out.bytes();
                self.k_out = k_out.bytes();
            }
            Call::Verdict { k_out, .. } => self.k_out = k_out.bytes(),
            // every answer writes it; where there is no exchange it is zeros too
            Call::Secret { .. } => self.h = vec![0; H],
            _ => {}
        }
    }

    /// Stage, fail number, role and method, behind the number of asking for them.
    fn state(&self, e: Option<&Exchange>) -> [u64; 5] {
        e.map_or([1, 0, 0, 0, 0], |e| {
            let (stage, fail) = numbers_of(e.stage);
            [0, stage.into(), fail.into(), e.role.into(), e.method.into()]
        })
    }

    /// The identifier's length and the count, behind the number of asking for them, and the identifier: nothing where the length does
    /// not go with the count, at whatever stage.
    fn session(&mut self, e: Option<&Exchange>) -> [u64; 3] {
        let told = e.map(|e| e.session).filter(|s| match s.completed {
            0 => s.id_len == 0,
            _ => matches!(s.id_len, 32 | 48 | 64),
        });
        let session = told.unwrap_or_default();
        self.id.clear();
        self.id.extend_from_slice(&session.id);
        [told.is_none().into(), session.id_len as u64, session.completed]
    }

    /// The next call of a list. A careful host's is mostly one that is accepted, as a try on another side shows.
    pub fn next(&self, r: &mut Random, kept: usize, careful: bool, other: &mut Side) -> Call {
        for _ in 0..3 {
            let call = calls::next(r, &self.exchange, self.room.len(), kept, careful);
            if !careful || r.once_in(24) {
                return call;
            }
            other.exchange.clone_from(&self.exchange);
            other.room.clone_from(&self.room);
            if other.answer(&call).number == 0 {
                return call;
            }
        }
        calls::next(r, &self.exchange, self.room.len(), kept, careful)
    }

    /// What INIT's and REPLY's steps would answer, tried in a copy of the room, and the parts that they would tell.
    fn parts(&mut self, e: &Exchange, payload: &[u8]) -> [[u64; 3]; 4] {
        let mut try_step = |step: fn(Exchange, &mut [u8], &[u8]) -> Answer| {
            self.tried.clone_from(&self.room);
            u64::from(step(*e, &mut self.tried, payload).number)
        };
        let (init, reply) = (try_step(plain::read_init), try_step(plain::read_reply));
        let [k_s, s, signature] = plain::reply_parts(e, &self.room, payload);
        let c = plain::init_c(e, &self.room, payload);
        [(init, c), (reply, k_s), (reply, s), (reply, signature)].map(|(number, p)| [number, p.start as u64, p.len as u64])
    }

    /// The call on the plain implementation, with the calls for parts, which are made with any payload, and what is told after it.
    pub fn call(&mut self, call: &Call) -> Given {
        let parts = match (call, exchange_of(&self.exchange)) {
            (Call::Init(p) | Call::Reply(p), Some(e)) => self.parts(&e, p),
            (Call::Init(_) | Call::Reply(_), None) => [[1, 0, 0]; 4],
            _ => Default::default(),
        };
        let given = self.answer(call);
        let e = exchange_of(&self.exchange);
        Given { parts, state: self.state(e.as_ref()), session: self.session(e.as_ref()), ..given }
    }

    /// The call itself. Bytes that no exchange has are answered 1 and stay.
    fn answer(&mut self, call: &Call) -> Given {
        self.before(call);
        let mut given = Given::default();
        match call {
            Call::Room(_) | Call::Poke(..) | Call::Forge(..) | Call::Session(_) | Call::Lend(_) | Call::Record(_) | Call::Old { .. } => {}
            Call::Start { .. } if self.exchange.len() != EXCHANGE => given.number = 1,
            Call::Start { role, method, vc, vs, ic, is } => {
                let a = plain::start(byte(*role), byte(*method), vc, vs, ic, is, &mut self.room);
                given.number = a.number.into();
                self.exchange.copy_from_slice(&bytes_of(&a.exchange));
            }
            Call::Derive { letter, length, .. } => given.number = derived(&self.exchange, *letter, *length, &mut self.out),
            _ => match exchange_of(&self.exchange) {
                Some(e) => given = self.step(e, call),
                None => given.number = 1,
            },
        }
        given
    }

    fn step(&mut self, e: Exchange, call: &Call) -> Given {
        let mut given = Given::default();
        let room = &mut self.room;
        let mut parts = [Part::default(); 3];
        let a = match call {
            Call::OwnC { c, .. } => plain::own_c(e, room, c, &mut self.out),
            Call::Init(p) => {
                parts[0] = plain::init_c(&e, room, p);
                plain::read_init(e, room, p)
            }
            Call::Reply(p) => {
                parts = plain::reply_parts(&e, room, p);
                plain::read_reply(e, room, p)
            }
            Call::Secret { given, x_count, x, kem, k_pq, ks, s } => {
                let classical = if *given == 1 { Classical::Given(*x_count as usize) } else { Classical::Failed };
                let a = plain::take_secret(e, room, classical, x, kem_of(e.method, *kem), k_pq, ks, s);
                self.h.copy_from_slice(&a.h);
                a
            }
            Call::Sign { signature, .. } => plain::sign(e, room, signature, &mut self.out, &mut self.k_out),
            Call::Verdict { signature, host_key, .. } => plain::verdict(e, room, *signature == 1, *host_key == 1, &mut self.k_out),
            Call::Again { method, ic, is } => plain::again(e, byte(*method), ic, is, room),
            _ => unreachable!("no step"),
        };
        given.number = a.number.into();
        given.told = match call {
            Call::Init(_) => told(&parts[..1], a.position),
            Call::Reply(_) => told(&parts, a.position),
            _ => [a.count as u64, a.second as u64, 0, 0, 0, 0, 0],
        };
        self.exchange.copy_from_slice(&bytes_of(&a.exchange));
        given
    }
}
