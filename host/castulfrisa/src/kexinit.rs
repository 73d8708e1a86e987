//! KEXINIT (RFC 4253, section 7.1), read and written, and the choice from two of them.
use crate::raw::{self, Cursor};
use crate::refusal::{judged, read, Cause, Refusal};
use crate::{bytes, Method, COOKIE, KEXINIT_MOST, LISTS};
use core::fmt;

/// One of a KEXINIT's lists; `C2s` is client to server.
#[derive(Clone, Copy, Debug, PartialEq, Eq, Hash, PartialOrd, Ord)]
pub enum List {
    Kex = 1,
    HostKey = 2,
    CipherC2s = 3,
    CipherS2c = 4,
    MacC2s = 5,
    MacS2c = 6,
    CompressionC2s = 7,
    CompressionS2c = 8,
    LanguageC2s = 9,
    LanguageS2c = 10,
}

impl List {
    /// All of them, in a KEXINIT's order.
    pub const ALL: [List; LISTS] = [
        List::Kex,
        List::HostKey,
        List::CipherC2s,
        List::CipherS2c,
        List::MacC2s,
        List::MacS2c,
        List::CompressionC2s,
        List::CompressionS2c,
        List::LanguageC2s,
        List::LanguageS2c,
    ];

    /// The core's number.
    pub fn number(self) -> u64 {
        self as u64
    }

    /// The list of a number, 1 to 10.
    pub fn of(number: u64) -> Option<List> {
        List::ALL.into_iter().find(|list| list.number() == number)
    }
}

/// Why a KEXINIT was not written.
#[derive(Clone, Copy, Debug, PartialEq, Eq)]
pub struct NotWritten {
    pub refusal: Refusal,
    /// The first list that is bad, or with which the lists become longer than a KEXINIT can be.
    pub list: Option<List>,
}

impl fmt::Display for NotWritten {
    fn fmt(&self, f: &mut fmt::Formatter<'_>) -> fmt::Result {
        match self.list {
            Some(list) => write!(f, "list {} ({:?}): {}", list.number(), list, self.refusal),
            None => self.refusal.fmt(f),
        }
    }
}

impl core::error::Error for NotWritten {}

impl From<NotWritten> for Refusal {
    fn from(not: NotWritten) -> Refusal {
        not.refusal
    }
}

/// The bytes that the lists of the longest KEXINIT have: it has 62 beside them.
const JOINED: usize = KEXINIT_MOST - 62;

/// Writes a KEXINIT at the beginning of `out`, its lists in the order of `List::ALL`; the bytes written.
pub fn write_kexinit(
    out: &mut [u8], cookie: &[u8; COOKIE], lists: &[&[u8]; LISTS], follows: bool, reserved: u32,
) -> Result<usize, NotWritten> {
    let (mut joined, mut ends) = ([0; JOINED], [0; LISTS]);
    let (mut kept, mut total) = (0, 0u64);
    for (list, end) in lists.iter().zip(&mut ends) {
        // what is too long is cut, and its end lies behind the rest: the core refuses it there
        let fits = list.len().min(JOINED - kept);
        joined[kept..kept + fits].copy_from_slice(&list[..fits]);
        kept += fits;
        total = total.saturating_add(list.len() as u64);
        *end = total;
    }
    let mut told = raw::Proposed::default();
    let number = raw::write_kexinit(out, cookie, &joined[..kept], &ends, follows as u64, reserved as u64, &mut told);
    judged(number).map_err(|refusal| NotWritten { refusal, list: List::of(told.bad_list) })?;
    Ok(told.count as usize)
}

/// A KEXINIT opened for one of its lists.
#[derive(Clone, Copy, Debug)]
pub struct Kexinit<'a> {
    pub cookie: &'a [u8],
    pub follows: bool,
    pub reserved: u32,
    pub names: Names<'a>,
}

/// The names of one list. A bad name is yielded as an error, once, and ends the iteration.
#[derive(Clone, Copy, Debug)]
pub struct Names<'a> {
    payload: &'a [u8],
    cursor: Cursor,
    over: bool,
}

impl<'a> Iterator for Names<'a> {
    type Item = Result<&'a [u8], Refusal>;

    fn next(&mut self) -> Option<Self::Item> {
        if self.over {
            return None;
        }
        let mut name = raw::Part::default();
        let number = raw::next_name(self.payload, &mut self.cursor, &mut name);
        self.over = name.len == 0;
        match judged(number) {
            Ok(()) => (!self.over).then(|| Ok(bytes(self.payload, name))),
            Err(refusal) => Some(Err(refusal)),
        }
    }
}

impl core::iter::FusedIterator for Names<'_> {}

/// Opens a KEXINIT for one of its lists. Names are judged as they are yielded. Where it breaks, the cause has the place.
pub fn open_list(payload: &[u8], list: List) -> Result<Kexinit<'_>, Cause> {
    let mut o = raw::Opened::default();
    let number = raw::open_list(payload, list.number(), &mut o);
    read(number, payload, o.position)?;
    let names = Names { payload, cursor: o.cursor, over: false };
    Ok(Kexinit { cookie: bytes(payload, o.cookie), follows: o.follows == 1, reserved: o.reserved as u32, names })
}

/// What two KEXINITs agree on.
#[derive(Clone, Copy, Debug, PartialEq, Eq)]
pub struct Choice<'a> {
    pub method: Method,
    /// In the client's payload.
    pub host_key: &'a [u8],
    /// Whether the client's next packet is a wrong guess, to be ignored.
    pub ignore_client: bool,
    /// Whether the server's is.
    pub ignore_server: bool,
}

/// The choice from a client's and a server's KEXINIT.
pub fn choose<'a>(client: &'a [u8], server: &[u8]) -> Result<Choice<'a>, Refusal> {
    let mut c = raw::Choice::default();
    judged(raw::choose(client, server, &mut c))?;
    Ok(Choice {
        // only an archive of another version knows a method that this crate does not
        method: Method::of(c.method).ok_or(Refusal::NoMethod)?,
        host_key: bytes(client, c.host_key),
        ignore_client: c.ignore_client == 1,
        ignore_server: c.ignore_server == 1,
    })
}
