//! Sessions on both, one thing at a time: at every stage of every method and role each count and each identifier's length, with the step
//! that is due, a beginning again and a key; and beginnings again with each method, room, I_C and I_S, at counts up to the most. After each
//! call all that `lists` compares.
use crate::calls::{Call, Filled, COUNTS, DIGESTS, ID_LENS, METHODS};
use crate::lists::{both, Lent};
use crate::model::Side;
use crate::random::Random;
use crate::stored::{exchange_of, put_session, EXCHANGE};
use crate::tally::Tally;
use plain::{Method, Session, COMPLETED_MOST, H};

/// Numbers that are no method, some of which a byte or 32 bits would be one.
const NO_METHODS: [u64; 10] = [0, 10, 11, 255, 256, 256 + 1, 1 << 16 | 2, 1 << 32 | 3, 1 << 63 | 4, u64::MAX];

/// What is compared, and how many calls were.
#[derive(Default)]
pub struct Tried {
    core: Lent,
    pub count: u64,
}

impl Tried {
    /// A call from where a side stands, which stays there; what it gave.
    fn one(&mut self, from: &Side, call: &Call, tally: &mut Tally) -> Result<u64, String> {
        let mut model = Side::at(&from.exchange, &from.room);
        self.on(&mut model, call, tally)
    }

    /// A call that leads on.
    fn on(&mut self, model: &mut Side, call: &Call, tally: &mut Tally) -> Result<u64, String> {
        let mut r = Random::new(106, self.count);
        self.count += 1;
        self.core.begin(&mut r, model);
        let was = model.exchange.clone();
        let given = both(&mut self.core, model, call, r.word(), tally).map_err(|what| format!("on {:?}: {}", exchange_of(&was), what))?;
        Ok(given.number)
    }
}

/// The calls of an exchange in their order, each as it is accepted.
fn calls(role: u8, number: u8, m: &Method) -> Vec<Call> {
    let filled = |len| Filled { with: [7; 3], len };
    let value = |len, classical: usize| {
        let mut v = vec![9; len];
        v[classical] = 4;
        v
    };
    let string = |body: &[u8]| [&(body.len() as u32).to_be_bytes()[..], body].concat();
    let (c, s) = (value(m.c_len, m.c_classical), value(m.s_len, m.s_classical));
    let (kem, k_pq) = if m.hybrid { (2, vec![5; plain::K_PQ]) } else { (0, vec![]) };
    let (vc, vs, ic, is) = (b"c".to_vec(), b"ss".to_vec(), vec![20], vec![20, 1]);
    let start = Call::Start { role: role.into(), method: number.into(), vc, vs, ic, is };
    let (ks, k_out) = (b"k".to_vec(), filled(plain::K_RECORD));
    let secret = Call::Secret { given: 1, x_count: m.x_len as u64, x: vec![0x80; m.x_len], kem, k_pq, ks, s: s.clone() };
    match role {
        1 => vec![
            start,
            Call::OwnC { c, out: filled(plain::INIT_OUT) },
            Call::Reply([vec![31], string(b"k"), string(&s), string(b"g")].concat()),
            secret,
            Call::Verdict { signature: 1, host_key: 1, k_out },
        ],
        _ => vec![
            start,
            Call::Init([vec![30], string(&c)].concat()),
            secret,
            Call::Sign { signature: b"g".to_vec(), out: filled(plain::REPLY_OUT), k_out },
        ],
    }
}

fn again(method: u64, ic: &[u8], is: &[u8]) -> Call {
    Call::Again { method, ic: ic.to_vec(), is: is.to_vec() }
}

/// Every count with every length, on an exchange that waits for a call.
fn judged(tried: &mut Tried, at: &Side, due: &Call, tally: &mut Tally) -> Result<(), String> {
    let id: [u8; H] = std::array::from_fn(|i| 3 * i as u8 + 1);
    let key = Call::Derive { letter: 65, length: 100, key: Filled { with: [7; 3], len: 100 } };
    for completed in COUNTS {
        for id_len in ID_LENS {
            let mut side = Side::at(&at.exchange, &at.room);
            put_session(&mut side.exchange, &Session { id, id_len: id_len as usize, completed });
            let complete = matches!(due, Call::Again { .. });
            let fits = match completed {
                0 => id_len == 0 && !complete,
                1..COMPLETED_MOST => DIGESTS.contains(&(id_len as usize)),
                COMPLETED_MOST => DIGESTS.contains(&(id_len as usize)) && complete,
                _ => false,
            };
            // here by the words too, beside what the plain implementation says
            let want = match fits {
                false => 1,
                true if complete && completed == COMPLETED_MOST => 23,
                true => 0,
            };
            let number = tried.one(&side, due, tally)?;
            if number != want {
                return Err(format!("{:?} at a count of {} and a length of {}: {} and not {}", due, completed, id_len, number, want));
            }
            tried.one(&side, &again(0, &[], &[]), tally)?;
            tried.one(&side, &key, tally)?;
        }
    }
    Ok(())
}

/// Beginnings again of a complete exchange, at a count below the most and at the most.
fn begun(tried: &mut Tried, done: &Side, tally: &mut Tally) -> Result<(), String> {
    for completed in [1, COMPLETED_MOST - 1, COMPLETED_MOST] {
        let mut side = Side::at(&done.exchange, &done.room);
        put_session(&mut side.exchange, &Session { id: [6; H], id_len: 48, completed });
        for method in (0..=20).chain(NO_METHODS) {
            tried.one(&side, &again(method, &[20], &[20]), tally)?;
        }
        // ahead of a room that is too short, that ahead of a field, and that ahead of the count
        for room in [0, 1, plain::ROOM - 1, plain::ROOM, plain::ROOM + 1] {
            let mut lent = side.room.clone();
            lent.resize(room, 8);
            let side = Side::at(&side.exchange, &lent);
            for (method, ic, is) in [(0, &[][..], &[][..]), (1, &[], &[]), (1, &[20], &[]), (1, &[20], &[20]), (257, &[20], &[20])] {
                tried.one(&side, &again(method, ic, is), tally)?;
            }
        }
        for len in [0, 1, 2, 255, 256, 4095, 4096, 4097, 65_536] {
            for first in [20, 0, 19, 21, 30, 20 | 128, 255] {
                let mut i = vec![1; len];
                i.iter_mut().take(1).for_each(|byte| *byte = first);
                tried.one(&side, &again(3, &i, &[20, 5]), tally)?;
                tried.one(&side, &again(3, &[20, 5], &i), tally)?;
            }
        }
    }
    Ok(())
}

/// A call that has to be accepted.
fn accepted(tried: &mut Tried, side: &mut Side, call: &Call, tally: &mut Tally) -> Result<(), String> {
    match tried.on(side, call, tally)? {
        0 => Ok(()),
        number => Err(format!("{:?} is answered {}", call, number)),
    }
}

pub fn edges(tried: &mut Tried, tally: &mut Tally) -> Result<(), String> {
    for (number, role) in (1..=METHODS as u8).flat_map(|number| [(number, 1), (number, 2)]) {
        let m = plain::method(number).expect("a method");
        let all = calls(role, number, m);
        let mut side = Side::at(&[0xee; EXCHANGE], &[0xdd; plain::ROOM]);
        let next = again(u64::from(number % METHODS as u8 + 1), &[20; 30], &[20; 40]);
        for (at, due) in all.iter().zip(all.iter().skip(1).chain([&next])) {
            accepted(tried, &mut side, at, tally)?;
            judged(tried, &side, due, tally)?;
        }
        begun(tried, &side, tally)?;
        // a second exchange, whose room is the first one's
        accepted(tried, &mut side, &again(number.into(), &[20], &[20; 9]), tally)?;
        for at in &all[1..] {
            accepted(tried, &mut side, at, tally)?;
        }
        let session = exchange_of(&side.exchange).map(|e| (e.session.completed, e.session.id_len));
        if session != Some((2, m.digest_len)) {
            return Err(format!("two exchanges of method {} left {:?}", number, session));
        }
    }
    Ok(())
}
