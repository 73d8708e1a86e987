//! Why a call was refused.
use crate::Place;
use core::fmt;

/// Why a call was refused; `number` is the core's.
#[derive(Clone, Copy, Debug, PartialEq, Eq, Hash)]
pub enum Refusal {
    /// 1: the call is not due: a step out of turn, also when the exchange is complete or failed, or a key or a new beginning of one that is
    /// not complete; or the bytes lent for it are none.
    NotDue,
    /// 2: method not 1 to 9, or role neither client nor server.
    NoMethod,
    /// 3: the room is too short.
    ShortRoom,
    /// 4: what the caller handed in has a wrong length or form, a hash would be fed too much, or no key has that letter or length.
    BadInput,
    /// 5: an output is too short.
    ShortOutput,
    /// 10: a payload is empty or too long.
    PayloadSize,
    /// 11: another message's number.
    Message,
    /// 12: a field, or its four length bytes, passes the end.
    PastEnd,
    /// 13: bytes are left over.
    LeftOver,
    /// 14: a field's length is not allowed.
    FieldLength,
    /// 15: a NIST point does not begin with 4.
    LeadByte,
    /// 16: the classical primitive failed, or gave zero where that is refused.
    Classical,
    /// 17: the KEM failed.
    Kem,
    /// 18: signature or host key not accepted.
    Verdict,
    /// 19: a bad name in a list.
    BadName,
    /// 20: no common method.
    NoCommonMethod,
    /// 21: no common host key name.
    NoCommonHostKey,
    /// 22: an mpint that could be shorter.
    NotShortest,
    /// 23: an exchange of a session that has 4,294,967,295 complete ones begins no other.
    CountFull,
    /// Any other number, which no archive of this version gives.
    Other(u64),
}

/// Each number with its refusal and the header's sentence for it.
const ALL: [(u64, Refusal, &str); 19] = [
    (1, Refusal::NotDue, "the call is not due, or the bytes lent for the exchange are none"),
    (2, Refusal::NoMethod, "there is no such method or role"),
    (3, Refusal::ShortRoom, "the room is too short"),
    (4, Refusal::BadInput, "a field, outcome, K_PQ or hash handed in has a wrong length or form, a hash would be fed too much, or no key has that letter or length"),
    (5, Refusal::ShortOutput, "an output is too short"),
    (10, Refusal::PayloadSize, "the payload is empty or too long"),
    (11, Refusal::Message, "the payload is another message"),
    (12, Refusal::PastEnd, "a field of the payload passes its end"),
    (13, Refusal::LeftOver, "the payload has bytes left over"),
    (14, Refusal::FieldLength, "a field of the payload has a length that is not allowed"),
    (15, Refusal::LeadByte, "the peer's point does not begin with 4"),
    (16, Refusal::Classical, "the classical primitive failed, or gave all zeros"),
    (17, Refusal::Kem, "the KEM failed"),
    (18, Refusal::Verdict, "the signature or the host key is not accepted"),
    (19, Refusal::BadName, "a list has a bad name"),
    (20, Refusal::NoCommonMethod, "the two sides have no method in common"),
    (21, Refusal::NoCommonHostKey, "the two sides have no host key algorithm in common"),
    (22, Refusal::NotShortest, "an mpint could be shorter"),
    (23, Refusal::CountFull, "4,294,967,295 exchanges are complete: this session can begin no other"),
];

impl Refusal {
    fn row(self) -> (u64, &'static str) {
        match self {
            Refusal::Other(number) => (number, "no number of this library"),
            known => ALL.iter().find(|row| row.1 == known).map_or((0, ""), |row| (row.0, row.2)),
        }
    }

    /// The core's number.
    pub fn number(self) -> u64 {
        self.row().0
    }

    /// The refusal of a number other than 0.
    pub fn of(number: u64) -> Refusal {
        ALL.iter().find(|row| row.0 == number).map_or(Refusal::Other(number), |row| row.1)
    }

    /// Whether it ends an exchange for good where a step gave it: the peer's fault, 10 to 18.
    pub fn ends_exchange(self) -> bool {
        (10..=18).contains(&self.number())
    }
}

impl fmt::Display for Refusal {
    fn fmt(&self, f: &mut fmt::Formatter<'_>) -> fmt::Result {
        let (number, sentence) = self.row();
        write!(f, "{} ({})", sentence, number)
    }
}

impl core::error::Error for Refusal {}

/// Why a call was refused, and where the payload breaks.
///
/// ```
/// use castulfrisa::{open_list, Cause, Field, List, Refusal};
/// let cause = open_list(&[20; 12], List::Kex).unwrap_err();
/// assert_eq!(cause, Refusal::PastEnd);
/// assert_eq!(cause.place.map(|place| (place.position, place.field)), Some((1, Some(Field::Cookie))));
/// assert_eq!(cause.to_string(), "KEXINIT cut at byte 1, in the cookie (12)");
/// assert_eq!(open_list(&[], List::Kex).unwrap_err(), Cause { refusal: Refusal::PayloadSize, place: None });
/// ```
#[derive(Clone, Copy, Debug, PartialEq, Eq, Hash)]
pub struct Cause {
    pub refusal: Refusal,
    /// With `PastEnd` and `LeftOver` of an INIT, a REPLY or a KEXINIT; none with every other refusal.
    pub place: Option<Place>,
}

impl fmt::Display for Cause {
    fn fmt(&self, f: &mut fmt::Formatter<'_>) -> fmt::Result {
        match self.place {
            Some(place) => write!(f, "{} ({})", place, self.refusal.number()),
            None => self.refusal.fmt(f),
        }
    }
}

impl core::error::Error for Cause {}

impl From<Refusal> for Cause {
    fn from(refusal: Refusal) -> Cause {
        Cause { refusal, place: None }
    }
}

impl From<Cause> for Refusal {
    /// Gives the place up.
    fn from(cause: Cause) -> Refusal {
        cause.refusal
    }
}

/// Whatever the place.
impl PartialEq<Refusal> for Cause {
    fn eq(&self, refusal: &Refusal) -> bool {
        self.refusal == *refusal
    }
}

/// A number as a result.
pub(crate) fn judged(number: u64) -> Result<(), Refusal> {
    match number {
        0 => Ok(()),
        n => Err(Refusal::of(n)),
    }
}

/// A reader's, with the position that it told of its payload.
pub(crate) fn read(number: u64, payload: &[u8], position: u64) -> Result<(), Cause> {
    judged(number).map_err(|refusal| Cause { refusal, place: Place::of(payload, position) })
}
