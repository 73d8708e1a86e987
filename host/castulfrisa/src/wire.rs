//! Strings and mpints (RFC 4251, section 5).
use crate::raw::{self, StringParts};
use crate::refusal::{judged, Refusal};
use crate::bytes;

/// The string at the front of `s`, and what follows it.
pub fn read_string(s: &[u8]) -> Result<(&[u8], &[u8]), Refusal> {
    let mut parts = StringParts::default();
    judged(raw::read_string(s, &mut parts))?;
    Ok((bytes(s, parts.body), bytes(s, parts.rest)))
}

/// Writes `body` as a string at the beginning of `out`; the bytes written.
pub fn write_string(out: &mut [u8], body: &[u8]) -> Result<usize, Refusal> {
    let mut count = 0;
    judged(raw::write_string(out, body, &mut count))?;
    Ok(count as usize)
}

/// An mpint: its sign, -1, 0 or 1, and its two's complement body.
#[derive(Clone, Copy, Debug, PartialEq, Eq)]
pub struct Mpint<'a> {
    pub sign: i64,
    pub body: &'a [u8],
}

/// The mpint at the front of `s`, and what follows it.
pub fn read_mpint(s: &[u8]) -> Result<(Mpint<'_>, &[u8]), Refusal> {
    let (mut sign, mut parts) = (0, StringParts::default());
    judged(raw::read_mpint(s, &mut sign, &mut parts))?;
    Ok((Mpint { sign, body: bytes(s, parts.body) }, bytes(s, parts.rest)))
}

/// Writes two's complement bytes, none meaning zero, as an mpint at the beginning of `out`; the bytes written.
pub fn write_mpint(out: &mut [u8], number: &[u8]) -> Result<usize, Refusal> {
    let mut count = 0;
    judged(raw::write_mpint(out, number, &mut count))?;
    Ok(count as usize)
}
