//! Where an INIT, a REPLY or a KEXINIT breaks.
use crate::{read_string, List, COOKIE};
use core::fmt;

/// A message whose reader tells where it breaks.
#[derive(Clone, Copy, Debug, PartialEq, Eq, Hash)]
pub enum Message {
    Kexinit = 20,
    Init = 30,
    Reply = 31,
}

impl Message {
    /// The message of a payload's first byte.
    pub fn of(number: u8) -> Option<Message> {
        [Message::Kexinit, Message::Init, Message::Reply].into_iter().find(|message| *message as u8 == number)
    }

    /// Its fields, in their order.
    pub fn fields(self) -> &'static [Field] {
        match self {
            Message::Kexinit => &[
                Field::Cookie,
                Field::List(List::Kex),
                Field::List(List::HostKey),
                Field::List(List::CipherC2s),
                Field::List(List::CipherS2c),
                Field::List(List::MacC2s),
                Field::List(List::MacS2c),
                Field::List(List::CompressionC2s),
                Field::List(List::CompressionS2c),
                Field::List(List::LanguageC2s),
                Field::List(List::LanguageS2c),
                Field::Follows,
                Field::Reserved,
            ],
            Message::Init => &[Field::C],
            Message::Reply => &[Field::HostKey, Field::S, Field::Signature],
        }
    }
}

impl fmt::Display for Message {
    fn fmt(&self, f: &mut fmt::Formatter<'_>) -> fmt::Result {
        f.write_str(match self {
            Message::Kexinit => "KEXINIT",
            Message::Init => "INIT",
            Message::Reply => "REPLY",
        })
    }
}

/// A field of one of them; `HostKey` is K_S.
#[derive(Clone, Copy, Debug, PartialEq, Eq, Hash)]
pub enum Field {
    Cookie,
    List(List),
    Follows,
    Reserved,
    C,
    HostKey,
    S,
    Signature,
}

impl Field {
    /// Its name, as the header has it: a KEXINIT's are the RFC's.
    pub fn name(self) -> &'static str {
        match self {
            Field::Cookie => "cookie",
            Field::List(List::Kex) => "kex_algorithms",
            Field::List(List::HostKey) => "server_host_key_algorithms",
            Field::List(List::CipherC2s) => "encryption_algorithms_client_to_server",
            Field::List(List::CipherS2c) => "encryption_algorithms_server_to_client",
            Field::List(List::MacC2s) => "mac_algorithms_client_to_server",
            Field::List(List::MacS2c) => "mac_algorithms_server_to_client",
            Field::List(List::CompressionC2s) => "compression_algorithms_client_to_server",
            Field::List(List::CompressionS2c) => "compression_algorithms_server_to_client",
            Field::List(List::LanguageC2s) => "languages_client_to_server",
            Field::List(List::LanguageS2c) => "languages_server_to_client",
            Field::Follows => "first_kex_packet_follows",
            Field::Reserved => "reserved",
            Field::C => "C",
            Field::HostKey => "K_S",
            Field::S => "S",
            Field::Signature => "signature",
        }
    }

    /// Whether it is a string, and so begins with four length bytes.
    pub fn is_string(self) -> bool {
        self.fixed().is_none()
    }

    /// The bytes of one that is no string.
    fn fixed(self) -> Option<usize> {
        match self {
            Field::Cookie => Some(COOKIE),
            Field::Follows => Some(1),
            Field::Reserved => Some(4),
            _ => None,
        }
    }

    /// What stands behind it where it is at the front of these bytes; none where it is cut.
    fn behind(self, bytes: &[u8]) -> Option<&[u8]> {
        match self.fixed() {
            Some(len) => bytes.get(len..),
            None => read_string(bytes).ok().map(|(_, rest)| rest),
        }
    }
}

/// Where a payload breaks.
#[derive(Clone, Copy, Debug, PartialEq, Eq, Hash)]
pub struct Place {
    pub message: Message,
    /// Counted from 0 at the payload's first byte: where the field that is cut begins, a string at its four length bytes; or the
    /// first byte that is left over. It is the payload's length where not one byte of the field is there.
    pub position: usize,
    /// The field that is cut; none where bytes are left over behind the last one.
    pub field: Option<Field>,
    /// Whether it is a string of whose four length bytes not all are there.
    pub in_length: bool,
}

impl Place {
    /// What a position that a reader told says of its payload: for those who call `raw`. None for another message, and for a
    /// position where no field begins: 0 is one.
    pub fn of(payload: &[u8], position: u64) -> Option<Place> {
        let (number, mut rest) = payload.split_first()?;
        let (message, position) = (Message::of(*number)?, usize::try_from(position).ok()?);
        for field in message.fields() {
            if payload.len() - rest.len() == position {
                let in_length = field.is_string() && rest.len() < 4;
                return Some(Place { message, position, field: Some(*field), in_length });
            }
            rest = field.behind(rest)?;
        }
        let left_over = Place { message, position, field: None, in_length: false };
        (payload.len() - rest.len() == position).then_some(left_over)
    }
}

impl fmt::Display for Place {
    fn fmt(&self, f: &mut fmt::Formatter<'_>) -> fmt::Result {
        let Place { message, position, field, in_length } = *self;
        let Some(field) = field else { return write!(f, "{} has bytes left over from byte {} on", message, position) };
        // two of the names are words
        let the = if matches!(field, Field::Cookie | Field::Signature) { "the " } else { "" };
        let length = if in_length { "'s length" } else { "" };
        write!(f, "{} cut at byte {}, in {}{}{}", message, position, the, field.name(), length)
    }
}
