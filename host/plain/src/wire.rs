//! Wire rules: the string and the mpint.

/// A part of lent bytes; a refusal's part is empty and stands at the start.
#[derive(Clone, Copy, PartialEq, Eq, Debug, Default)]
pub struct Part {
    pub start: usize,
    pub len: usize,
}

impl Part {
    pub(crate) fn end(self) -> usize {
        self.start + self.len
    }

    /// The bytes of a part that was cut from these same bytes.
    pub(crate) fn of(self, bytes: &[u8]) -> &[u8] {
        &bytes[self.start..self.end()]
    }
}

#[derive(Clone, Copy, PartialEq, Eq, Debug, Default)]
pub struct StringRead {
    pub number: u8,
    pub body: Part,
    pub rest: Part,
}

#[derive(Clone, Copy, PartialEq, Eq, Debug, Default)]
pub struct MpintRead {
    pub number: u8,
    pub sign: i8,
    pub body: Part,
    pub rest: Part,
}

#[derive(Clone, Copy, PartialEq, Eq, Debug, Default)]
pub struct Written {
    pub number: u8,
    pub count: usize,
}

impl Written {
    pub(crate) fn refused(number: u8) -> Self {
        Written { number, count: 0 }
    }
}

/// Why a payload is refused, and where it breaks: 0 where the number is neither 12 nor 13 (SPECIFICATION 2.7).
#[derive(Clone, Copy)]
pub(crate) struct Refused {
    pub(crate) number: u8,
    pub(crate) position: usize,
}

impl From<u8> for Refused {
    fn from(number: u8) -> Self {
        Refused { number, position: 0 }
    }
}

impl Refused {
    /// The field that begins here ends behind the payload.
    pub(crate) fn cut(position: usize) -> Self {
        Refused { number: 12, position }
    }

    /// The last field ends here, and the payload does not.
    pub(crate) fn left_over(position: usize) -> Self {
        Refused { number: 13, position }
    }
}

/// The body of the string that begins at `at`, or none where it or its four length bytes pass the end.
///
/// The length is held against what is left: adding 4 to it could wrap.
pub(crate) fn string_at(s: &[u8], at: usize) -> Option<Part> {
    let (length, rest) = s.get(at..)?.split_first_chunk::<4>()?;
    let len = usize::try_from(u32::from_be_bytes(*length)).ok()?;
    (len <= rest.len()).then_some(Part { start: at + 4, len })
}

/// Writes a string at `at`, in a buffer known to hold it, and answers where it ends.
pub(crate) fn put_string(out: &mut [u8], at: usize, body: &[u8]) -> usize {
    let begin = at + 4;
    let end = begin + body.len();
    out[at..begin].copy_from_slice(&(body.len() as u32).to_be_bytes());
    out[begin..end].copy_from_slice(body);
    end
}

/// Takes one string from the front and hands back the rest; the one refusal is 12, for empty input too.
pub fn read_string(s: &[u8]) -> StringRead {
    match string_at(s, 0) {
        Some(body) => StringRead { number: 0, body, rest: Part { start: body.end(), len: s.len() - body.end() } },
        None => StringRead { number: 12, ..StringRead::default() },
    }
}

/// Writes one string at the beginning of `out`: 4 before 5.
pub fn write_string(out: &mut [u8], body: &[u8]) -> Written {
    if u32::try_from(body.len()).is_err() {
        return Written::refused(4);
    }
    if out.len() < 4 || out.len() - 4 < body.len() {
        return Written::refused(5);
    }
    Written { number: 0, count: put_string(out, 0, body) }
}

/// Whether the first byte of a two's complement number says nothing that the rest does not say.
fn could_be_shorter(body: &[u8]) -> bool {
    match *body {
        [0] => true, // zero has an empty body
        [0, next, ..] => next < 0x80,
        [0xff, next, ..] => next >= 0x80,
        _ => false,
    }
}

/// Takes one mpint from the front, like a string, with 12 before 22.
pub fn read_mpint(s: &[u8]) -> MpintRead {
    let StringRead { number, body, rest } = read_string(s);
    if number != 0 {
        return MpintRead { number, ..MpintRead::default() };
    }
    let bytes = body.of(s);
    if could_be_shorter(bytes) {
        return MpintRead { number: 22, ..MpintRead::default() };
    }
    let sign = match bytes.first() {
        None => 0,
        Some(&high) if high >= 0x80 => -1,
        Some(_) => 1,
    };
    MpintRead { number: 0, sign, body, rest }
}

/// Writes any two's complement bytes, none meaning zero, with the shortest body; that body is what 4 and 5 look at.
pub fn write_mpint(out: &mut [u8], bytes: &[u8]) -> Written {
    let mut body = bytes;
    while could_be_shorter(body) {
        body = &body[1..];
    }
    write_string(out, body)
}
