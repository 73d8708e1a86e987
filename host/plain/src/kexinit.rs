//! KEXINIT: the view over a lent payload, and the writer.

use crate::wire::{put_string, string_at, Part, Refused, Written};

pub(crate) const KEXINIT: u8 = 20;
pub(crate) const PAYLOAD_MAX: usize = 4096;
const COOKIE: Part = Part { start: 1, len: 16 };
const LISTS: usize = 10;
const NAME_MAX: usize = 64;

/// The next name begins at `at`, the list ends at `end`. Behind the last name `at` is past `end`, so that the empty
/// name after a trailing comma is still ahead.
#[derive(Clone, Copy, PartialEq, Eq, Debug, Default)]
pub struct Cursor {
    pub at: usize,
    pub end: usize,
}

impl Cursor {
    /// An empty list has no name ahead, and a view refused at opening yields only the end.
    const NOTHING_AHEAD: Cursor = Cursor { at: 1, end: 0 };
}

#[derive(Clone, Copy, PartialEq, Eq, Debug, Default)]
pub struct Opened {
    pub number: u8,
    pub cookie: Part,
    pub follows: bool,
    pub reserved: u32,
    pub cursor: Cursor,
    /// Where the payload breaks, with 12 and 13.
    pub position: usize,
}

#[derive(Clone, Copy, PartialEq, Eq, Debug, Default)]
pub struct Next {
    pub number: u8,
    pub found: bool,
    pub name: Part,
    pub cursor: Cursor,
}

/// Where the fields of a payload stand; the names in its lists are not judged yet.
pub(crate) struct Layout {
    pub(crate) lists: [Part; LISTS],
    pub(crate) follows: bool,
    pub(crate) reserved: u32,
}

/// Judges 10 to 13, field by field, so that a cut is told at the first field that it cuts.
pub(crate) fn layout(payload: &[u8]) -> Result<Layout, Refused> {
    if payload.is_empty() || payload.len() > PAYLOAD_MAX {
        return Err(10.into());
    }
    if payload[0] != KEXINIT {
        return Err(11.into());
    }
    if payload.len() < COOKIE.end() {
        return Err(Refused::cut(COOKIE.start));
    }
    let mut lists = [Part::default(); LISTS];
    let mut at = COOKIE.end();
    for list in &mut lists {
        *list = string_at(payload, at).ok_or(Refused::cut(at))?;
        at = list.end();
    }
    let (&follows, rest) = payload[at..].split_first().ok_or(Refused::cut(at))?;
    // the reserved number is a field of its own
    at += 1;
    let (&reserved, left_over) = rest.split_first_chunk::<4>().ok_or(Refused::cut(at))?;
    if !left_over.is_empty() {
        return Err(Refused::left_over(at + 4));
    }
    Ok(Layout { lists, follows: follows != 0, reserved: u32::from_be_bytes(reserved) })
}

/// The length of the good name at the front, which ends before a comma or with the list.
fn name_len(list: &[u8]) -> Option<usize> {
    let mut len = 0;
    for &byte in list {
        if byte == b',' {
            break;
        }
        if len == NAME_MAX || !(33..=126).contains(&byte) {
            return None;
        }
        len += 1;
    }
    (len > 0).then_some(len)
}

/// A list is empty or names parted by single commas.
pub fn list_is_good(mut list: &[u8]) -> bool {
    if list.is_empty() {
        return true;
    }
    while let Some(len) = name_len(list) {
        match list.get(len + 1..) {
            Some(rest) => list = rest, // a comma stands at `len`, so a name must follow
            None => return true,
        }
    }
    false
}

/// Opens one list of a payload: 4, then 10 to 13. Names are judged only as they are yielded.
pub fn open_list(payload: &[u8], list: usize) -> Opened {
    let refused = |Refused { number, position }| {
        let cursor = Cursor::NOTHING_AHEAD;
        Opened { number, cursor, position, ..Opened::default() }
    };
    if !(1..=LISTS).contains(&list) {
        return refused(4.into());
    }
    let layout = match layout(payload) {
        Ok(layout) => layout,
        Err(why) => return refused(why),
    };
    let names = layout.lists[list - 1];
    let cursor = if names.len == 0 { Cursor::NOTHING_AHEAD } else { Cursor { at: names.start, end: names.end() } };
    Opened { number: 0, cookie: COOKIE, follows: layout.follows, reserved: layout.reserved, cursor, position: 0 }
}

/// Yields the name at the cursor, or the end. It stays at a bad name, as it stays at the end.
///
/// Anyone can set a cursor's fields: where they leave the payload or each other, nothing is ahead.
pub fn next_name(payload: &[u8], cursor: Cursor) -> Next {
    let Some(ahead) = payload.get(cursor.at..cursor.end) else {
        return Next { cursor, ..Next::default() };
    };
    match name_len(ahead) {
        Some(len) => Next {
            number: 0,
            found: true,
            name: Part { start: cursor.at, len },
            cursor: Cursor { at: cursor.at + len + 1, end: cursor.end },
        },
        None => Next { number: 19, cursor, ..Next::default() },
    }
}

/// Writes a KEXINIT payload: 4 to a cookie not of 16 bytes, a bad list or a total above 4,096, then 5.
pub fn write_kexinit(out: &mut [u8], cookie: &[u8], lists: &[&[u8]; 10], follows: bool, reserved: u32) -> Written {
    // Byte 20, the cookie, ten lengths, the boolean and the reserved number; lists can be of any length, so the sum
    // stops at the highest number instead of wrapping.
    let fixed = 1 + COOKIE.len + 4 * LISTS + 1 + 4;
    let total = lists.iter().fold(fixed, |sum, list| sum.saturating_add(list.len()));
    if cookie.len() != COOKIE.len || total > PAYLOAD_MAX || !lists.iter().all(|list| list_is_good(list)) {
        return Written::refused(4);
    }
    if out.len() < total {
        return Written::refused(5);
    }
    out[0] = KEXINIT;
    out[COOKIE.start..COOKIE.end()].copy_from_slice(cookie);
    let mut at = COOKIE.end();
    for list in lists {
        at = put_string(out, at, list);
    }
    out[at] = u8::from(follows);
    out[at + 1..total].copy_from_slice(&reserved.to_be_bytes());
    Written { number: 0, count: total }
}
