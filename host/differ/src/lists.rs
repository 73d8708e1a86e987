//! A list of calls on both: after each, every number, all that was told, and every byte of the exchange, of the room, of the
//! outputs and of the inputs is compared.
use crate::calls::{self, Call, Field};
use crate::fence::{Fence, Numbers};
use crate::model::{Given, Side, TOLD};
use crate::random::Random;
use crate::stored::{bytes_of, exchange_of, forge, numbers_of, put_session, EXCHANGE, MARK};
use crate::tally::Tally;
use castulfrisa::raw;
use plain::{Exchange, Stage, COMPLETED_MOST};

/// What is lent to the core, each buffer at a fence. Exchange and room stay where they are through a list.
#[derive(Default)]
pub struct Lent {
    exchange: Fence,
    room: Fence,
    out: Fence,
    k_out: Fence,
    h: Fence,
    id: Fence,
    inputs: [Fence; 4],
    numbers: Fence,
    ahead: Ahead,
    kept: Kept,
}

/// Copies of exchange and room that somebody kept, one after each call of a list. Their memory stays from list to list.
#[derive(Default)]
struct Kept {
    copies: Vec<(Vec<u8>, Vec<u8>)>,
    count: usize,
}

impl Kept {
    fn add(&mut self, exchange: &[u8], room: &[u8]) {
        if self.count == self.copies.len() {
            self.copies.push(Default::default());
        }
        let (kept, kept_room) = &mut self.copies[self.count];
        kept.clear();
        kept.extend_from_slice(exchange);
        kept_room.clear();
        kept_room.extend_from_slice(room);
        self.count += 1;
    }
}

/// Which buffers of a list stand behind a fence; the others stand ahead of one.
#[derive(Clone, Copy, Default)]
struct Ahead {
    exchange: bool,
    room: bool,
    others: bool,
}

/// A call for a part: exchange, room, payload.
pub type PartEntry = fn(&[u8], &[u8], &[u8], &mut raw::Part) -> u64;

fn told(words: [u64; 10]) -> [u64; TOLD] {
    std::array::from_fn(|i| words[i])
}

impl Lent {
    /// Lends an exchange and a room as the model has them, and forgets older ones.
    pub fn begin(&mut self, r: &mut Random, side: &Side) {
        self.kept.count = 0;
        self.ahead = Ahead { exchange: r.coin(), room: r.coin(), others: r.coin() };
        self.exchange.lend(&side.exchange, self.ahead.exchange);
        self.room.lend(&side.room, self.ahead.room);
    }

    /// Lends the outputs of a call afresh, and does what is no call of the core.
    fn before(&mut self, call: &Call) {
        let Ahead { exchange, room, others } = self.ahead;
        self.out.lend(&[], others);
        self.k_out.lend(&[], others);
        self.h.lend(&[], others);
        match call {
            Call::Room(f) => {
                self.room.lend(&f.bytes(), room);
            }
            Call::Poke(at, bytes) => self.room.bytes_mut()[*at..at + bytes.len()].copy_from_slice(bytes),
            Call::Forge(field, to) => forge(self.exchange.bytes_mut(), *field, *to),
            Call::Session(session) => put_session(self.exchange.bytes_mut(), session),
            Call::Lend(bytes) => {
                self.exchange.lend(bytes, exchange);
            }
            Call::Record(e) => {
                self.exchange.lend(&bytes_of(e), exchange);
            }
            Call::OwnC { out, .. } | Call::Derive { key: out, .. } => {
                self.out.lend(&out.bytes(), others);
            }
            Call::Sign { out, k_out, .. } => {
                self.out.lend(&out.bytes(), others);
                self.k_out.lend(&k_out.bytes(), others);
            }
            Call::Verdict { k_out, .. } => {
                self.k_out.lend(&k_out.bytes(), others);
            }
            Call::Secret { .. } => {
                self.h.lend(&[0xa5; plain::H], others);
            }
            _ => {}
        }
    }

    /// The calls of their own for the four parts, where the call has a payload: number, start and length of each.
    fn parts(&mut self, call: &Call, word: u64, tally: &mut Tally) -> [[u64; 3]; 4] {
        let (Call::Init(payload) | Call::Reply(payload)) = call else { return Default::default() };
        let entries: [(&str, PartEntry); 4] = [
            ("init_c", raw::init_c),
            ("reply_host_key", raw::reply_host_key),
            ("reply_s", raw::reply_s),
            ("reply_signature", raw::reply_signature),
        ];
        let payload = self.inputs[0].lend(payload, self.ahead.others);
        entries.map(|(name, entry)| {
            let part = self.numbers.numbers(word, self.ahead.others);
            let number = entry(self.exchange.bytes(), self.room.bytes(), payload, part);
            tally.note(name, number);
            [number, part.start, part.len]
        })
    }

    fn state(&mut self, word: u64, tally: &mut Tally) -> [u64; 5] {
        let told: &mut raw::Progress = self.numbers.numbers(word, self.ahead.others);
        let number = raw::state(self.exchange.bytes(), told);
        tally.note("state", number);
        [number, told.stage, told.fail, told.role, told.method]
    }

    /// Length and count, behind the number; the identifier is in its fence.
    fn session(&mut self, word: u64, tally: &mut Tally) -> [u64; 3] {
        let told: &mut raw::Session = self.numbers.numbers(word, self.ahead.others);
        self.id.lend(&[word as u8; plain::H], self.ahead.others);
        let number = raw::session_id(self.exchange.bytes(), told, self.id.array());
        tally.note("session_id", number);
        [number, told.id_len, told.completed]
    }

    /// The call on the core. The lent numbers hold `word` until it fills them in.
    fn call(&mut self, call: &Call, word: u64, tally: &mut Tally) -> Given {
        self.before(call);
        let mut given = Given::default();
        let ahead = self.ahead.others;
        let [i0, i1, i2, i3] = &mut self.inputs;
        let (exchange, room) = (self.exchange.bytes_mut(), self.room.bytes_mut());
        let (out, k_out, numbers) = (self.out.bytes_mut(), self.k_out.bytes_mut(), &mut self.numbers);
        given.number = match call {
            Call::Start { role, method, vc, vs, ic, is } => {
                let (vc, vs, ic, is) = (i0.lend(vc, ahead), i1.lend(vs, ahead), i2.lend(ic, ahead), i3.lend(is, ahead));
                raw::start(exchange, *role, *method, vc, vs, ic, is, room)
            }
            Call::OwnC { c, .. } => {
                let count: &mut u64 = numbers.numbers(word, ahead);
                let number = raw::own_c(exchange, room, i0.lend(c, ahead), out, count);
                given.told = told(count.words());
                number
            }
            Call::Init(p) => {
                let init: &mut raw::Init = numbers.numbers(word, ahead);
                let number = raw::read_init(exchange, room, i0.lend(p, ahead), init);
                given.told = told(init.words());
                number
            }
            Call::Reply(p) => {
                let parts: &mut raw::Reply = numbers.numbers(word, ahead);
                let number = raw::read_reply(exchange, room, i0.lend(p, ahead), parts);
                given.told = told(parts.words());
                number
            }
            Call::Secret { given: yes, x_count, x, kem, k_pq, ks, s } => {
                let (x, k_pq, ks, s) = (i0.lend(x, ahead), i1.lend(k_pq, ahead), i2.lend(ks, ahead), i3.lend(s, ahead));
                let count: &mut u64 = numbers.numbers(word, ahead);
                let number = raw::take_secret(exchange, room, *yes, *x_count, x, *kem, k_pq, ks, s, count, self.h.array());
                given.told = told(count.words());
                number
            }
            Call::Sign { signature, .. } => {
                let counts: &mut raw::Signed = numbers.numbers(word, ahead);
                let number = raw::sign(exchange, room, i0.lend(signature, ahead), out, k_out, counts);
                given.told = told(counts.words());
                number
            }
            Call::Verdict { signature, host_key, .. } => {
                let count: &mut u64 = numbers.numbers(word, ahead);
                let number = raw::verdict(exchange, room, *signature, *host_key, k_out, count);
                given.told = told(count.words());
                number
            }
            Call::Again { method, ic, is } => {
                let (ic, is) = (i0.lend(ic, ahead), i1.lend(is, ahead));
                raw::again(exchange, room, *method, ic, is)
            }
            Call::Derive { letter, length, .. } => raw::derive(exchange, *letter, *length, out),
            Call::Room(_) | Call::Poke(..) | Call::Forge(..) | Call::Session(_) | Call::Lend(_) | Call::Record(_) | Call::Old { .. } => 0,
        };
        given.state = self.state(word, tally);
        given.session = self.session(word, tally);
        given
    }

    /// The first input that the core wrote to.
    fn written_to(&self, call: &Call) -> Option<usize> {
        let inputs: [&[u8]; 4] = match call {
            Call::Start { vc, vs, ic, is, .. } => [vc, vs, ic, is],
            Call::OwnC { c: one, .. } | Call::Sign { signature: one, .. } | Call::Init(one) | Call::Reply(one) => {
                [one, &[], &[], &[]]
            }
            Call::Secret { x, k_pq, ks, s, .. } => [x, k_pq, ks, s],
            Call::Again { ic, is, .. } => [ic, is, &[], &[]],
            _ => return None,
        };
        inputs.iter().zip(&self.inputs).position(|(given, fence)| !given.is_empty() && *given != fence.bytes())
    }
}

pub fn entry(call: &Call) -> Option<&'static str> {
    Some(match call {
        Call::Start { .. } => "start",
        Call::OwnC { .. } => "own_c",
        Call::Init(_) => "read_init",
        Call::Reply(_) => "read_reply",
        Call::Secret { .. } => "take_secret",
        Call::Sign { .. } => "sign",
        Call::Verdict { .. } => "verdict",
        Call::Again { .. } => "again",
        Call::Derive { .. } => "derive",
        _ => return None,
    })
}

/// The payload of a call that reads one, and the position that was told of it.
pub fn position<'a>(call: &'a Call, given: &Given) -> Option<(&'a [u8], u64)> {
    match call {
        Call::Init(payload) => Some((payload, given.told[2])),
        Call::Reply(payload) => Some((payload, given.told[6])),
        _ => None,
    }
}

/// What a run of lists saw, beside the numbers.
#[derive(Clone, Copy)]
pub enum Sight {
    Call,
    Complete,
    Fault,
    Forged,
    Lent,
    Poked,
    OtherLength,
    OtherMark,
    OtherStage,
    OtherFail,
    Old,
    OldRoom,
    Revived,
    WideRole,
    WideMethod,
    WideGiven,
    WideKem,
    WideSignature,
    WideHostKey,
    KemAlone,
    KemWithout,
    Key,
    KeyOfRecord,
    KeyEarly,
    KeyUnfit,
    WideLetter,
    LongKey,
    Twice,
    Thrice,
    AgainSame,
    AgainOther,
    AgainHash,
    AgainVersion,
    AgainUnfit,
    WideAgain,
    FaultLater,
    AfterFault,
    KeyLater,
    KeyIdentifier,
    FullWritten,
    FullCounted,
    FullMadeUp,
    FullMethod,
    FullRoom,
    FullField,
    AboveMost,
    MostEarly,
    NoneLate,
    NoLength,
    NotTold,
}

const SIGHTS: [(Sight, &str); 50] = [
    (Sight::Call, "calls"),
    (Sight::Complete, "exchanges complete"),
    (Sight::Fault, "peer faults"),
    (Sight::Forged, "numbers of an exchange forged"),
    (Sight::Lent, "times other bytes lent for it"),
    (Sight::Poked, "writes into a room"),
    (Sight::OtherLength, "calls on an exchange of another length"),
    (Sight::OtherMark, "on one with another mark"),
    (Sight::OtherStage, "with a stage that there is not"),
    (Sight::OtherFail, "with a fail number though it had not failed"),
    (Sight::Old, "older copies of an exchange put back"),
    (Sight::OldRoom, "of them with the older room"),
    (Sight::Revived, "of them where it had failed and lives again"),
    (Sight::WideRole, "roles above 255"),
    (Sight::WideMethod, "methods"),
    (Sight::WideGiven, "outcomes of the classical primitive"),
    (Sight::WideKem, "outcomes of the KEM"),
    (Sight::WideSignature, "verdicts on a signature"),
    (Sight::WideHostKey, "verdicts on a host key"),
    (Sight::KemAlone, "KEMs done with K_PQ where the classical primitive failed, 16"),
    (Sight::KemWithout, "of them without K_PQ, 4"),
    (Sight::Key, "keys"),
    (Sight::KeyOfRecord, "of them of exchanges that no steps made"),
    (Sight::KeyEarly, "asked for before the exchange was complete, 1"),
    (Sight::KeyUnfit, "of a complete one that does not fit, 1"),
    (Sight::WideLetter, "by letters above 255"),
    (Sight::LongKey, "above 128 bytes in an output that has them, 4"),
    (Sight::Twice, "lists that completed an exchange and then another, begun again"),
    (Sight::Thrice, "of them three and more"),
    (Sight::AgainSame, "exchanges begun again in the same method"),
    (Sight::AgainOther, "in another"),
    (Sight::AgainHash, "of them with another hash"),
    (Sight::AgainVersion, "behind V's that somebody wrote to"),
    (Sight::AgainUnfit, "not begun again, complete but not fitting, 1"),
    (Sight::WideAgain, "methods above 255 to begin again in"),
    (Sight::FaultLater, "peer faults in a later exchange"),
    (Sight::AfterFault, "calls behind one, 1"),
    (Sight::KeyLater, "keys of a later exchange"),
    (Sight::KeyIdentifier, "keys, of exchanges that steps made, with an identifier of another length than the running method's digest"),
    (Sight::FullWritten, "not begun again, 23, where somebody wrote the count"),
    (Sight::FullCounted, "where a last step counted up to it"),
    (Sight::FullMadeUp, "where no steps made the exchange"),
    (Sight::FullMethod, "answered 2 at that count"),
    (Sight::FullRoom, "answered 3"),
    (Sight::FullField, "answered 4"),
    (Sight::AboveMost, "calls that were due but for a count above the most, 1"),
    (Sight::MostEarly, "for the most while not complete"),
    (Sight::NoneLate, "for 0 while complete"),
    (Sight::NoLength, "for an identifier's length that does not go with the count"),
    (Sight::NotTold, "of those lengths no session told"),
];

/// The stages by their numbers.
const STAGES: [&str; 7] = ["started", "C sent", "INIT read", "REPLY read", "secret done", "complete", "failed"];

/// Who made a count that is the most.
#[derive(Clone, Copy, Default, PartialEq)]
enum Full {
    #[default]
    Nobody,
    Written,
    Counted,
    MadeUp,
}

/// How often each was seen.
struct Counts([u64; SIGHTS.len()]);

impl Default for Counts {
    fn default() -> Counts {
        Counts([0; SIGHTS.len()])
    }
}

#[derive(Default)]
pub struct Seen {
    counts: Counts,
    /// By stage: beginnings again refused with 1, but for the complete, and calls refused with 1 that were due but for the session, but for the
    /// failed.
    early: [u64; STAGES.len()],
    unfit: [u64; STAGES.len()],
    /// Whether no steps made the exchange.
    made_up: bool,
    full: Full,
    /// Whether somebody wrote to the V's since the start.
    versions: bool,
    /// How many exchanges were completed one behind another, and the most of a list.
    row: u64,
    longest: u64,
}

/// Whether a call is one that an exchange of this stage and role waits for.
fn is_due(call: &Call, e: &Exchange) -> bool {
    let waits = |stage, role| e.stage == stage && e.role == role;
    match call {
        Call::OwnC { .. } => waits(Stage::Started, 1),
        Call::Init(_) => waits(Stage::Started, 2),
        Call::Reply(_) => waits(Stage::OwnC, 1),
        Call::Secret { .. } => waits(Stage::Reply, 1) || waits(Stage::Init, 2),
        Call::Verdict { .. } => waits(Stage::Secret, 1),
        Call::Sign { .. } => waits(Stage::Secret, 2),
        Call::Again { .. } | Call::Derive { .. } => waits(Stage::Complete, 1) || waits(Stage::Complete, 2),
        _ => false,
    }
}

impl Seen {
    fn add(&mut self, sight: Sight, when: bool) {
        self.counts.0[sight as usize] += when as u64;
    }

    /// What a session made of a call, and the exchange ahead of it.
    fn note_session(&mut self, call: &Call, given: &Given, before: &Exchange) {
        let (number, session, complete) = (given.number, before.session, before.stage == Stage::Complete);
        let digest = |method: u8| plain::method(method).map(|m| m.digest_len);
        match call {
            Call::Again { method, .. } => {
                self.early[usize::from(numbers_of(before.stage).0)] += u64::from(number == 1);
                let same = *method == u64::from(before.method);
                self.add(Sight::AgainSame, number == 0 && same);
                self.add(Sight::AgainOther, number == 0 && !same);
                self.add(Sight::AgainHash, number == 0 && digest(*method as u8) != digest(before.method));
                self.add(Sight::AgainVersion, number == 0 && self.versions);
                self.add(Sight::AgainUnfit, number == 1 && complete);
                self.add(Sight::WideAgain, *method > 255);
                let full = complete && session.completed == COMPLETED_MOST;
                for (sight, of) in [(Sight::FullWritten, Full::Written), (Sight::FullCounted, Full::Counted), (Sight::FullMadeUp, Full::MadeUp)] {
                    self.add(sight, number == 23 && self.full == of);
                }
                for (sight, of) in [(Sight::FullMethod, 2), (Sight::FullRoom, 3), (Sight::FullField, 4)] {
                    self.add(sight, number == of && full);
                }
            }
            Call::Derive { .. } => {
                self.add(Sight::KeyLater, number == 0 && session.completed > 1);
                let other = Some(session.id_len) != digest(before.method);
                self.add(Sight::KeyIdentifier, number == 0 && other && !self.made_up);
            }
            _ => self.add(Sight::FaultLater, (10..=18).contains(&number) && session.completed > 0),
        }
        let failed = matches!(before.stage, Stage::Failed(_)) && session.completed > 0;
        self.add(Sight::AfterFault, failed && number == 1);
        let no_length = if session.completed == 0 { session.id_len != 0 } else { !calls::DIGESTS.contains(&session.id_len) };
        let why = match session.completed {
            _ if no_length => Sight::NoLength,
            0 if complete => Sight::NoneLate,
            COMPLETED_MOST if !complete => Sight::MostEarly,
            0..=COMPLETED_MOST => return,
            _ => Sight::AboveMost,
        };
        self.add(Sight::NotTold, no_length && given.session == [1, 0, 0]);
        if number == 1 && is_due(call, before) {
            self.add(why, true);
            self.unfit[usize::from(numbers_of(before.stage).0)] += 1;
        }
    }

    /// A list begins or ends.
    fn list(&mut self) {
        self.add(Sight::Twice, self.longest > 1);
        self.add(Sight::Thrice, self.longest > 2);
        (self.row, self.longest, self.made_up, self.full, self.versions) = (0, 0, false, Full::Nobody, false);
    }

    /// What a call does to who made the count, the V's and the row of completed exchanges.
    fn follow(&mut self, call: &Call, number: u64, before: Option<&Exchange>, after: Option<&Exchange>) {
        let most = after.is_some_and(|e| e.session.completed == COMPLETED_MOST);
        match call {
            Call::Poke(at, _) => self.versions |= before.is_some_and(|e| *at < 8 + e.lens[0] + e.lens[1]),
            Call::Room(_) => self.versions = true,
            Call::Sign { .. } | Call::Verdict { .. } if number == 0 => {
                self.row += 1;
                self.longest = self.longest.max(self.row);
                self.full = if most { Full::Counted } else { Full::Nobody };
            }
            Call::Forge(Field::Completed, _) | Call::Session(_) => self.full = if most { Full::Written } else { Full::Nobody },
            Call::Start { .. } => (self.row, self.full, self.versions) = (0, Full::Nobody, false),
            Call::Record(_) => (self.row, self.full) = (0, if most { Full::MadeUp } else { Full::Nobody }),
            Call::Lend(_) | Call::Old { .. } => (self.row, self.full) = (0, Full::Nobody),
            _ => {}
        }
    }

    /// A call and what it gave, the exchange ahead of it, and the bytes that it left for it.
    fn note(&mut self, call: &Call, given: &Given, before: Option<&Exchange>, exchange: &[u8]) {
        let number = given.number;
        if let Some(before) = before {
            self.note_session(call, given, before);
        }
        let after = exchange_of(exchange);
        self.follow(call, number, before, after.as_ref());
        self.add(Sight::Forged, matches!(call, Call::Forge(..) | Call::Session(_)));
        self.add(Sight::Lent, matches!(call, Call::Lend(_)));
        self.add(Sight::Poked, matches!(call, Call::Poke(..)));
        let wide = |n: u64| n > 255;
        match call {
            Call::Start { role, method, .. } => {
                self.add(Sight::WideRole, wide(*role));
                self.add(Sight::WideMethod, wide(*method));
            }
            Call::Secret { given, kem, k_pq, .. } => {
                self.add(Sight::WideGiven, wide(*given));
                self.add(Sight::WideKem, wide(*kem));
                let alone = *given != 1 && *kem == 2;
                self.add(Sight::KemAlone, alone && k_pq.len() == plain::K_PQ && number == 16);
                self.add(Sight::KemWithout, alone && k_pq.is_empty() && number == 4);
            }
            Call::Verdict { signature, host_key, .. } => {
                self.add(Sight::WideSignature, wide(*signature));
                self.add(Sight::WideHostKey, wide(*host_key));
            }
            Call::Derive { letter, length, key } => {
                let complete = after.map(|e| e.stage == Stage::Complete);
                self.add(Sight::Key, number == 0);
                self.add(Sight::KeyOfRecord, number == 0 && self.made_up);
                self.add(Sight::KeyEarly, number == 1 && complete == Some(false));
                self.add(Sight::KeyUnfit, number == 1 && complete == Some(true));
                self.add(Sight::WideLetter, wide(*letter));
                self.add(Sight::LongKey, number == 4 && *length > plain::KEY_MOST as u64 && key.len as u64 >= *length);
            }
            _ => {}
        }
        match call {
            Call::Record(_) => self.made_up = true,
            Call::Start { .. } | Call::Lend(_) | Call::Old { .. } => self.made_up = false,
            _ => {}
        }
        if entry(call).is_none() {
            return;
        }
        self.add(Sight::Call, true);
        self.add(Sight::Fault, (10..=18).contains(&number));
        self.add(Sight::Complete, matches!(call, Call::Sign { .. } | Call::Verdict { .. }) && number == 0);
        if after.is_none() {
            let why = match exchange {
                _ if exchange.len() != EXCHANGE => Sight::OtherLength,
                [MARK, stage, ..] if *stage > 6 => Sight::OtherStage,
                [MARK, ..] => Sight::OtherFail,
                _ => Sight::OtherMark,
            };
            self.add(why, true);
        }
    }

    /// Prints what was seen; false where something never was.
    pub fn print(&self) -> bool {
        for (sight, what) in SIGHTS {
            println!("{:>9} {}", self.counts.0[sight as usize], what);
        }
        let mut all = self.counts.0.iter().all(|count| *count > 0);
        let stages = |what: &str, counts: &[u64; STAGES.len()], but: usize| {
            let of: Vec<_> = (0..STAGES.len()).filter(|i| *i != but).map(|i| format!("{} {}", STAGES[i], counts[i])).collect();
            println!("{}: {}", what, of.join(", "));
            (0..STAGES.len()).all(|i| i == but || counts[i] > 0)
        };
        all &= stages("not begun again, 1, at", &self.early, 5);
        all &= stages("due but for the session, 1, at", &self.unfit, 6);
        all
    }
}

fn differs(what: &str, have: &[u8], want: &[u8]) -> Option<String> {
    (have != want).then(|| format!("the {} differs first at byte {}", what, first(have, want)))
}

/// A call on both; what it gave, or the first difference, told.
pub fn both(core: &mut Lent, model: &mut Side, call: &Call, word: u64, tally: &mut Tally) -> Result<Given, String> {
    let parts = core.parts(call, word, tally);
    // the calls for parts, where there were any, have changed nothing, and the model has not begun
    let told = match call {
        Call::Init(_) | Call::Reply(_) => differs("exchange of a call for a part", core.exchange.bytes(), &model.exchange)
            .or_else(|| differs("room of a call for a part", core.room.bytes(), &model.room)),
        _ => None,
    };
    let want = model.call(call);
    let have = Given { parts, ..core.call(call, word, tally) };
    if let Some(name) = entry(call) {
        tally.note(name, have.number);
    }
    let what = told
        .or_else(|| (have != want).then(|| format!("the core gives {:?}\nplain Rust    {:?}", have, want)))
        .or_else(|| differs("exchange", core.exchange.bytes(), &model.exchange))
        .or_else(|| differs("room", core.room.bytes(), &model.room))
        .or_else(|| differs("output", core.out.bytes(), &model.out))
        .or_else(|| differs("K output", core.k_out.bytes(), &model.k_out))
        .or_else(|| differs("H", core.h.bytes(), &model.h))
        .or_else(|| differs("session identifier", core.id.bytes(), &model.id))
        .or_else(|| core.written_to(call).map(|i| format!("input {} was written to", i + 1)));
    what.map_or(Ok(have), |what| Err(format!("{:?}\n{}", call, what)))
}

/// One list; the first difference, told.
pub fn list(seed: u64, index: u64, core: &mut Lent, tally: &mut Tally, seen: &mut Seen) -> Result<(), String> {
    let mut r = Random::new(seed, index);
    let (mut model, mut other) = (Side::new(), Side::new());
    core.begin(&mut r, &model);
    seen.list();
    let (length, careful) = calls::length(&mut r);
    // in some lists somebody keeps a copy of exchange and room after each call, and puts one back now and then
    let keeps = r.once_in(5);
    for i in 0..length {
        let call = match i {
            0 => Call::Room(calls::room(&mut r)),
            1 => calls::start(&mut r),
            _ => model.next(&mut r, core.kept.count, careful, &mut other),
        };
        let before = exchange_of(&model.exchange);
        if let Call::Old { copy, room } = call {
            let (old, old_room) = &core.kept.copies[copy];
            let lives = |bytes: &[u8]| exchange_of(bytes).map(|e| !matches!(e.stage, Stage::Failed(_)));
            seen.add(Sight::Old, true);
            seen.add(Sight::OldRoom, room);
            seen.add(Sight::Revived, lives(&model.exchange) == Some(false) && lives(old) == Some(true));
            model.exchange.clone_from(old);
            core.exchange.lend(old, core.ahead.exchange);
            if room {
                model.room.clone_from(old_room);
                core.room.lend(old_room, core.ahead.room);
            }
        }
        let told = |what| format!("seed {}, list {}, call {}: {}", seed, index, i, what);
        let given = both(core, &mut model, &call, r.word(), tally).map_err(told)?;
        if let Some((payload, position)) = position(&call, &given) {
            tally.broke(payload, given.number, position);
        }
        seen.note(&call, &given, before.as_ref(), &model.exchange);
        if keeps {
            core.kept.add(&model.exchange, &model.room);
        }
    }
    seen.list();
    Ok(())
}

pub fn first(a: &[u8], b: &[u8]) -> usize {
    a.iter().zip(b).position(|(x, y)| x != y).unwrap_or(a.len().min(b.len()))
}
