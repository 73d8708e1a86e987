//! Every captured INIT, REPLY and KEXINIT on both, broken in every place: of each length from none to whole, with a byte more, with each byte of
//! each string's length changed, with each string a byte shorter, and as another message. An INIT and a REPLY where they are due, where they are
//! not, in a room that is too short, and on bytes that no exchange has. After each call all that `lists` compares; and number and position
//! once more, by the words of SPECIFICATION 2.7.
use crate::calls::{Call, Filled};
use crate::captured::Capture;
use crate::codecs::{opened_of, Lent as Inputs};
use crate::lists::{both, position, Lent};
use crate::model::Side;
use crate::random::Random;
use crate::stored::EXCHANGE;
use crate::tally::Tally;
use castulfrisa::{Field, Message, Place};

/// What changes a byte of a length.
const CHANGES: [u8; 3] = [0x01, 0x80, 0xff];

/// What is compared, and how many payloads and calls were.
#[derive(Default)]
pub struct Tried {
    core: Lent,
    inputs: Inputs,
    tally: Tally,
    pub messages: u64,
    pub payloads: u64,
    pub calls: u64,
}

/// A broken payload, with the number and the position that the words have for it where they are known without reading it.
type Broken = (Vec<u8>, Option<(u64, u64)>);

/// A payload with where its fields begin, and behind them where the last one ends.
struct Whole {
    message: Message,
    payload: Vec<u8>,
    borders: Vec<usize>,
}

impl Whole {
    fn new(message: Message, payload: Vec<u8>) -> Result<Whole, String> {
        let mut borders = vec![1];
        for field in message.fields() {
            let at = borders[borders.len() - 1];
            let four = payload.get(at..at + 4).unwrap_or(&[0; 4]);
            borders.push(at + match field {
                Field::Cookie => 16,
                Field::Follows => 1,
                Field::Reserved => 4,
                _ => 4 + four.iter().fold(0, |n, b| n * 256 + usize::from(*b)),
            });
        }
        match borders.last() == Some(&payload.len()) && payload.first() == Some(&(message as u8)) {
            true => Ok(Whole { message, payload, borders }),
            false => Err(format!("the captured {} is none", message)),
        }
    }

    fn broken(&self) -> Vec<Broken> {
        let Whole { payload, borders, .. } = self;
        let end = payload.len();
        let cut = |len: usize| {
            let at = borders.iter().rev().find(|at| **at <= len);
            let want = match at {
                None => (10, 0),
                Some(_) if len == end => (0, 0),
                Some(at) => (12, *at as u64),
            };
            (payload[..len].to_vec(), Some(want))
        };
        let mut all: Vec<_> = (0..=end).map(cut).collect();
        all.push(([&payload[..], &[0]].concat(), Some((13, end as u64))));
        all.push(([&[payload[0] ^ 0x80], &payload[1..]].concat(), Some((11, 0))));
        let fields = self.message.fields().iter().zip(borders).zip(&borders[1..]);
        for ((_, &from), &to) in fields.filter(|((field, _), _)| field.is_string()) {
            for (i, change) in (from..from + 4).flat_map(|i| CHANGES.map(|change| (i, change))) {
                let mut changed = payload.clone();
                changed[i] ^= change;
                all.push((changed, None));
            }
            if to > from + 4 {
                let length = (to - from - 5) as u32;
                all.push(([&payload[..from], &length.to_be_bytes(), &payload[from + 5..]].concat(), None));
            }
        }
        all
    }

    /// The wrapper's name for the place where a payload breaks: the field that is not whole, or none behind the last one.
    fn named(&self, payload: &[u8], at: u64) -> Result<(), String> {
        let i = self.borders.iter().position(|border| *border as u64 == at);
        let want = i.and_then(|i| self.message.fields().get(i));
        match Place::of(payload, at) {
            Some(place) if place.message == self.message && place.field.as_ref() == want => Ok(()),
            place => Err(format!("{:?} at {}: {:?} and not {:?}", payload, at, place, want)),
        }
    }
}

impl Tried {
    /// A call from where a side stands, which stays there: number and position.
    fn one(&mut self, from: &Side, call: &Call) -> Result<(u64, u64), String> {
        let mut model = Side::at(&from.exchange, &from.room);
        let mut r = Random::new(27, self.calls);
        self.calls += 1;
        self.core.begin(&mut r, &model);
        let given = both(&mut self.core, &mut model, call, r.word(), &mut self.tally)?;
        let (payload, position) = position(call, &given).ok_or("a call that reads nothing")?;
        self.tally.broke(payload, given.number, position);
        Ok((given.number, position))
    }

    /// INIT or REPLY, where the step is due and on three sides where something is ahead of it.
    fn steps(&mut self, whole: &Whole, due: &Side, not_due: &Side) -> Result<(), String> {
        let short = Side::at(&due.exchange, &due.room[..plain::ROOM - 1]);
        let mut none = Side::at(&due.exchange, &due.room);
        none.exchange[0] ^= 1;
        for (payload, want) in whole.broken() {
            let call = if whole.message == Message::Init { Call::Init(payload) } else { Call::Reply(payload) };
            is("where it is due", &call, self.one(due, &call)?, want)?;
            is("where it is not due", &call, self.one(not_due, &call)?, Some((1, 0)))?;
            is("in a short room", &call, self.one(&short, &call)?, Some((3, 0)))?;
            is("on no exchange", &call, self.one(&none, &call)?, Some((1, 0)))?;
            self.payloads += 1;
        }
        Ok(())
    }

    /// A KEXINIT, opened for each list and for two that there are not.
    fn opened(&mut self, whole: &Whole) -> Result<(), String> {
        for (payload, want) in whole.broken() {
            for list in 0..=11 {
                let word = Random::new(27, self.calls).word();
                let (number, told) = self.inputs.open(&payload, list, word);
                self.calls += 1;
                let (given, model) = ((number, told), opened_of(&payload, list));
                if given != model {
                    return Err(format!("{:?} for list {}\nthe core gives {:?}\nplain Rust    {:?}", payload, list, given, model));
                }
                let want = if (1..=10).contains(&list) { want } else { Some((4, 0)) };
                is("opened", &payload, (number, told.position), want)?;
                self.tally.note("open_list", number);
                if list == 1 {
                    self.tally.broke(&payload, number, told.position);
                }
            }
            self.payloads += 1;
        }
        Ok(())
    }

    /// Prints what broke where; false where a field was never the cut one.
    pub fn print(&self) -> bool {
        println!("{:>18} messages\n{:>18} payloads that they were broken to\n{:>18} calls", self.messages, self.payloads, self.calls);
        self.tally.print_broke()
    }
}

/// Number and position by the words, beside what the plain implementation says: these, or any with a position where there has to be one.
fn is<T: std::fmt::Debug>(what: &str, of: &T, have: (u64, u64), want: Option<(u64, u64)>) -> Result<(), String> {
    let (number, position) = have;
    match want.map_or((position > 0) == matches!(number, 12 | 13), |want| have == want) {
        true => Ok(()),
        false => Err(format!("{:?} {}: number and position {:?} and not {:?}", of, what, have, want)),
    }
}

/// A step that leads on, and has to be accepted.
fn lead(side: &mut Side, call: &Call) -> Result<(), String> {
    match side.call(call).number {
        0 => Ok(()),
        number => Err(format!("{:?} is answered {}", call, number)),
    }
}

/// The messages of one capture.
pub fn capture(tried: &mut Tried, c: &Capture) -> Result<(), String> {
    let method = c.word("method")?.parse().map_err(|_| "method")?;
    let (vc, vs, ic, is) = (c.bytes("V_C")?, c.bytes("V_S")?, c.bytes("I_C")?, c.bytes("I_S")?);
    let start = |role| Call::Start { role, method, vc: vc.clone(), vs: vs.clone(), ic: ic.clone(), is: is.clone() };
    let fresh = || Side::at(&[0xee; EXCHANGE], &[0xdd; plain::ROOM]);
    let (mut server, mut read, mut client, mut sent) = (fresh(), fresh(), fresh(), fresh());
    lead(&mut server, &start(2))?;
    lead(&mut read, &start(2))?;
    lead(&mut read, &Call::Init(c.bytes("INIT")?))?;
    lead(&mut client, &start(1))?;
    lead(&mut sent, &start(1))?;
    lead(&mut sent, &Call::OwnC { c: c.bytes("C")?, out: Filled { with: [7; 3], len: plain::INIT_OUT } })?;

    let wholes = [
        Whole::new(Message::Init, c.bytes("INIT")?)?,
        Whole::new(Message::Reply, c.bytes("REPLY")?)?,
        Whole::new(Message::Kexinit, ic.clone())?,
        Whole::new(Message::Kexinit, is.clone())?,
    ];
    for whole in &wholes {
        let of = |what: String| format!("{} broken: {}", whole.message, what);
        match whole.message {
            Message::Init => tried.steps(whole, &server, &read),
            Message::Reply => tried.steps(whole, &sent, &client),
            Message::Kexinit => tried.opened(whole),
        }
        .map_err(of)?;
        for (payload, want) in whole.broken() {
            if let Some((12 | 13, at)) = want {
                whole.named(&payload, at).map_err(of)?;
            }
        }
        tried.messages += 1;
    }
    Ok(())
}
