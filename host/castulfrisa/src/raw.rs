//! The boundary one to one: each entry of `include/castulfrisa.h` as a safe function on slices and on the header's runs of 64-bit
//! numbers. A call returns its number; an exchange and a hash are any slice, so that one of a wrong length can be lent too.
//!
//! Safe because the library asks nothing of its caller but what references have by themselves: memory that is valid, live and
//! aligned, and that shares no byte where it is written.
use crate::H_SIZE;

/// A place in the payload that was handed in; `0, 0` for a refusal.
#[repr(C)]
#[derive(Clone, Copy, Debug, Default, PartialEq, Eq)]
pub struct Part {
    pub start: u64,
    pub len: u64,
}

/// A string's or mpint's body, and the rest behind it.
#[repr(C)]
#[derive(Clone, Copy, Debug, Default, PartialEq, Eq)]
pub struct StringParts {
    pub body: Part,
    pub rest: Part,
}

/// A method's sizes; the last two are 1 or 0.
#[repr(C)]
#[derive(Clone, Copy, Debug, Default, PartialEq, Eq)]
pub struct Sizes {
    pub c_len: u64,
    pub c_classical: u64,
    pub s_len: u64,
    pub s_classical: u64,
    pub x_len: u64,
    pub digest_len: u64,
    pub hybrid: u64,
    pub zero_check: u64,
}

/// A place in a list, as `open_list` makes it. Any other numbers are answered too.
#[repr(C)]
#[derive(Clone, Copy, Debug, Default, PartialEq, Eq)]
pub struct Cursor {
    pub at: u64,
    pub end: u64,
}

/// `position` is where a payload that is answered 12 or 13 breaks, here and in `Init` and `Reply`; with every other number 0.
#[repr(C)]
#[derive(Clone, Copy, Debug, Default, PartialEq, Eq)]
pub struct Opened {
    pub cookie: Part,
    pub follows: u64,
    pub reserved: u64,
    pub cursor: Cursor,
    pub position: u64,
}

/// The bytes of a KEXINIT that was written, and the first bad list, 1 to 10, or 0.
#[repr(C)]
#[derive(Clone, Copy, Debug, Default, PartialEq, Eq)]
pub struct Proposed {
    pub count: u64,
    pub bad_list: u64,
}

#[repr(C)]
#[derive(Clone, Copy, Debug, Default, PartialEq, Eq)]
pub struct Choice {
    pub method: u64,
    pub host_key: Part,
    pub ignore_client: u64,
    pub ignore_server: u64,
}

#[repr(C)]
#[derive(Clone, Copy, Debug, Default, PartialEq, Eq)]
pub struct Init {
    pub c: Part,
    pub position: u64,
}

#[repr(C)]
#[derive(Clone, Copy, Debug, Default, PartialEq, Eq)]
pub struct Reply {
    pub host_key: Part,
    pub s: Part,
    pub signature: Part,
    pub position: u64,
}

/// The bytes of REPLY and of K.
#[repr(C)]
#[derive(Clone, Copy, Debug, Default, PartialEq, Eq)]
pub struct Signed {
    pub reply: u64,
    pub k: u64,
}

/// How far an exchange has come, what ended it, its role and its method.
#[repr(C)]
#[derive(Clone, Copy, Debug, Default, PartialEq, Eq)]
pub struct Progress {
    pub stage: u64,
    pub fail: u64,
    pub role: u64,
    pub method: u64,
}

/// The session identifier's length, and how many exchanges were completed.
#[repr(C)]
#[derive(Clone, Copy, Debug, Default, PartialEq, Eq)]
pub struct Session {
    pub id_len: u64,
    pub completed: u64,
}

// A slice crosses as its pointer and its length: the header's pairs in the header's order.
mod c {
    use super::*;

    extern "C" {
        pub fn castulfrisa_read_string(s: *const u8, s_len: u64, parts: *mut StringParts) -> u64;
        pub fn castulfrisa_write_string(out: *mut u8, out_len: u64, body: *const u8, body_len: u64, count: *mut u64) -> u64;
        pub fn castulfrisa_read_mpint(s: *const u8, s_len: u64, sign: *mut i64, parts: *mut StringParts) -> u64;
        pub fn castulfrisa_write_mpint(out: *mut u8, out_len: u64, bytes: *const u8, bytes_len: u64, count: *mut u64) -> u64;
        pub fn castulfrisa_method_number(name: *const u8, name_len: u64) -> u64;
        pub fn castulfrisa_method_name(method: u64, out: *mut u8, out_len: u64, count: *mut u64) -> u64;
        pub fn castulfrisa_method_sizes(method: u64, sizes: *mut Sizes) -> u64;
        pub fn castulfrisa_write_kexinit(
            out: *mut u8, out_len: u64,
            cookie: *const u8, cookie_len: u64,
            lists: *const u8, lists_len: u64,
            ends: *const u64,
            follows: u64, reserved: u64,
            told: *mut Proposed,
        ) -> u64;
        pub fn castulfrisa_open_list(payload: *const u8, payload_len: u64, list: u64, opened: *mut Opened) -> u64;
        pub fn castulfrisa_next_name(payload: *const u8, payload_len: u64, cursor: *mut Cursor, name: *mut Part) -> u64;
        pub fn castulfrisa_choose(
            client: *const u8, client_len: u64, server: *const u8, server_len: u64, choice: *mut Choice,
        ) -> u64;
        pub fn castulfrisa_start(
            exchange: *mut u8, exchange_len: u64,
            role: u64, method: u64,
            vc: *const u8, vc_len: u64,
            vs: *const u8, vs_len: u64,
            ic: *const u8, ic_len: u64,
            is: *const u8, is_len: u64,
            room: *mut u8, room_len: u64,
        ) -> u64;
        pub fn castulfrisa_own_c(
            exchange: *mut u8, exchange_len: u64, room: *mut u8, room_len: u64,
            c: *const u8, c_len: u64, out: *mut u8, out_len: u64, count: *mut u64,
        ) -> u64;
        pub fn castulfrisa_read_init(
            exchange: *mut u8, exchange_len: u64, room: *mut u8, room_len: u64,
            payload: *const u8, payload_len: u64, told: *mut Init,
        ) -> u64;
        pub fn castulfrisa_read_reply(
            exchange: *mut u8, exchange_len: u64, room: *mut u8, room_len: u64,
            payload: *const u8, payload_len: u64, told: *mut Reply,
        ) -> u64;
        pub fn castulfrisa_take_secret(
            exchange: *mut u8, exchange_len: u64, room: *mut u8, room_len: u64,
            given: u64, x_count: u64, x: *const u8, x_len: u64,
            kem: u64,
            k_pq: *const u8, k_pq_len: u64,
            ks: *const u8, ks_len: u64,
            s: *const u8, s_len: u64,
            count: *mut u64,
            h: *mut u8,
        ) -> u64;
        pub fn castulfrisa_sign(
            exchange: *mut u8, exchange_len: u64, room: *const u8, room_len: u64,
            signature: *const u8, signature_len: u64,
            out: *mut u8, out_len: u64, k_out: *mut u8, k_out_len: u64, counts: *mut Signed,
        ) -> u64;
        pub fn castulfrisa_verdict(
            exchange: *mut u8, exchange_len: u64, room: *mut u8, room_len: u64,
            signature: u64, host_key: u64, k_out: *mut u8, k_out_len: u64, count: *mut u64,
        ) -> u64;
        pub fn castulfrisa_again(
            exchange: *mut u8, exchange_len: u64, room: *mut u8, room_len: u64,
            method: u64,
            ic: *const u8, ic_len: u64,
            is: *const u8, is_len: u64,
        ) -> u64;
        pub fn castulfrisa_init_c(
            exchange: *const u8, exchange_len: u64, room: *const u8, room_len: u64,
            payload: *const u8, payload_len: u64, c: *mut Part,
        ) -> u64;
        pub fn castulfrisa_reply_host_key(
            exchange: *const u8, exchange_len: u64, room: *const u8, room_len: u64,
            payload: *const u8, payload_len: u64, host_key: *mut Part,
        ) -> u64;
        pub fn castulfrisa_reply_s(
            exchange: *const u8, exchange_len: u64, room: *const u8, room_len: u64,
            payload: *const u8, payload_len: u64, s: *mut Part,
        ) -> u64;
        pub fn castulfrisa_reply_signature(
            exchange: *const u8, exchange_len: u64, room: *const u8, room_len: u64,
            payload: *const u8, payload_len: u64, signature: *mut Part,
        ) -> u64;
        pub fn castulfrisa_state(exchange: *const u8, exchange_len: u64, told: *mut Progress) -> u64;
        pub fn castulfrisa_session_id(exchange: *const u8, exchange_len: u64, told: *mut Session, id: *mut u8) -> u64;
        pub fn castulfrisa_derive(
            exchange: *const u8, exchange_len: u64, letter: u64, length: u64, key: *mut u8, key_len: u64,
        ) -> u64;
        pub fn castulfrisa_hash_start(hash: *mut u8, hash_len: u64, kind: u64) -> u64;
        pub fn castulfrisa_hash_feed(hash: *mut u8, hash_len: u64, part: *const u8, part_len: u64) -> u64;
        pub fn castulfrisa_hash_finish(hash: *const u8, hash_len: u64, digest: *mut u8) -> u64;
        pub fn castulfrisa_wipe(buffer: *mut u8, buffer_len: u64);
        pub fn castulfrisa_version() -> u64;
    }
}

// ---- strings and mpints

/// The string at the front of `s`.
pub fn read_string(s: &[u8], parts: &mut StringParts) -> u64 {
    unsafe { c::castulfrisa_read_string(s.as_ptr(), s.len() as u64, parts) }
}

/// Writes `body` as a string at the beginning of `out`.
pub fn write_string(out: &mut [u8], body: &[u8], count: &mut u64) -> u64 {
    unsafe { c::castulfrisa_write_string(out.as_mut_ptr(), out.len() as u64, body.as_ptr(), body.len() as u64, count) }
}

/// The mpint at the front of `s`.
pub fn read_mpint(s: &[u8], sign: &mut i64, parts: &mut StringParts) -> u64 {
    unsafe { c::castulfrisa_read_mpint(s.as_ptr(), s.len() as u64, sign, parts) }
}

/// Writes two's complement bytes as an mpint at the beginning of `out`.
pub fn write_mpint(out: &mut [u8], bytes: &[u8], count: &mut u64) -> u64 {
    unsafe { c::castulfrisa_write_mpint(out.as_mut_ptr(), out.len() as u64, bytes.as_ptr(), bytes.len() as u64, count) }
}

// ---- methods

/// The number of the method of this name; 0 with none.
pub fn method_number(name: &[u8]) -> u64 {
    unsafe { c::castulfrisa_method_number(name.as_ptr(), name.len() as u64) }
}

/// Writes the name of a method at the beginning of `out`.
pub fn method_name(method: u64, out: &mut [u8], count: &mut u64) -> u64 {
    unsafe { c::castulfrisa_method_name(method, out.as_mut_ptr(), out.len() as u64, count) }
}

/// The sizes of a method.
pub fn method_sizes(method: u64, sizes: &mut Sizes) -> u64 {
    unsafe { c::castulfrisa_method_sizes(method, sizes) }
}

// ---- KEXINIT

/// Writes a KEXINIT at the beginning of `out`: the ten lists one behind another in `lists`, and where each of them ends.
pub fn write_kexinit(
    out: &mut [u8], cookie: &[u8], lists: &[u8], ends: &[u64; 10], follows: u64, reserved: u64, told: &mut Proposed,
) -> u64 {
    unsafe {
        c::castulfrisa_write_kexinit(
            out.as_mut_ptr(), out.len() as u64,
            cookie.as_ptr(), cookie.len() as u64,
            lists.as_ptr(), lists.len() as u64,
            ends.as_ptr(),
            follows, reserved,
            told,
        )
    }
}

/// Opens a KEXINIT for one of its lists, 1 to 10.
pub fn open_list(payload: &[u8], list: u64, opened: &mut Opened) -> u64 {
    unsafe { c::castulfrisa_open_list(payload.as_ptr(), payload.len() as u64, list, opened) }
}

/// The next name of a list; one of no bytes at its end.
pub fn next_name(payload: &[u8], cursor: &mut Cursor, name: &mut Part) -> u64 {
    unsafe { c::castulfrisa_next_name(payload.as_ptr(), payload.len() as u64, cursor, name) }
}

/// The choice from a client's and a server's KEXINIT.
pub fn choose(client: &[u8], server: &[u8], choice: &mut Choice) -> u64 {
    unsafe { c::castulfrisa_choose(client.as_ptr(), client.len() as u64, server.as_ptr(), server.len() as u64, choice) }
}

// ---- an exchange

/// Starts an exchange in a room.
#[allow(clippy::too_many_arguments)]
pub fn start(exchange: &mut [u8], role: u64, method: u64, vc: &[u8], vs: &[u8], ic: &[u8], is: &[u8], room: &mut [u8]) -> u64 {
    unsafe {
        c::castulfrisa_start(
            exchange.as_mut_ptr(), exchange.len() as u64,
            role, method,
            vc.as_ptr(), vc.len() as u64,
            vs.as_ptr(), vs.len() as u64,
            ic.as_ptr(), ic.len() as u64,
            is.as_ptr(), is.len() as u64,
            room.as_mut_ptr(), room.len() as u64,
        )
    }
}

/// Client: own C, INIT written.
pub fn own_c(exchange: &mut [u8], room: &mut [u8], value: &[u8], out: &mut [u8], count: &mut u64) -> u64 {
    unsafe {
        c::castulfrisa_own_c(
            exchange.as_mut_ptr(), exchange.len() as u64, room.as_mut_ptr(), room.len() as u64,
            value.as_ptr(), value.len() as u64, out.as_mut_ptr(), out.len() as u64, count,
        )
    }
}

/// Server: INIT read.
pub fn read_init(exchange: &mut [u8], room: &mut [u8], payload: &[u8], told: &mut Init) -> u64 {
    unsafe {
        c::castulfrisa_read_init(
            exchange.as_mut_ptr(), exchange.len() as u64, room.as_mut_ptr(), room.len() as u64,
            payload.as_ptr(), payload.len() as u64, told,
        )
    }
}

/// Client: REPLY read.
pub fn read_reply(exchange: &mut [u8], room: &mut [u8], payload: &[u8], parts: &mut Reply) -> u64 {
    unsafe {
        c::castulfrisa_read_reply(
            exchange.as_mut_ptr(), exchange.len() as u64, room.as_mut_ptr(), room.len() as u64,
            payload.as_ptr(), payload.len() as u64, parts,
        )
    }
}

/// Both roles: what the primitives gave; H written.
#[allow(clippy::too_many_arguments)]
pub fn take_secret(
    exchange: &mut [u8], room: &mut [u8], given: u64, x_count: u64, x: &[u8], kem: u64, k_pq: &[u8], ks: &[u8], s: &[u8],
    count: &mut u64, h: &mut [u8; H_SIZE],
) -> u64 {
    unsafe {
        c::castulfrisa_take_secret(
            exchange.as_mut_ptr(), exchange.len() as u64, room.as_mut_ptr(), room.len() as u64,
            given, x_count, x.as_ptr(), x.len() as u64,
            kem,
            k_pq.as_ptr(), k_pq.len() as u64,
            ks.as_ptr(), ks.len() as u64,
            s.as_ptr(), s.len() as u64,
            count,
            h.as_mut_ptr(),
        )
    }
}

/// Server, last: the signature; REPLY and K written.
pub fn sign(exchange: &mut [u8], room: &[u8], signature: &[u8], out: &mut [u8], k_out: &mut [u8], counts: &mut Signed) -> u64 {
    unsafe {
        c::castulfrisa_sign(
            exchange.as_mut_ptr(), exchange.len() as u64, room.as_ptr(), room.len() as u64,
            signature.as_ptr(), signature.len() as u64,
            out.as_mut_ptr(), out.len() as u64, k_out.as_mut_ptr(), k_out.len() as u64, counts,
        )
    }
}

/// Client, last: the verdict; K written.
pub fn verdict(exchange: &mut [u8], room: &mut [u8], signature: u64, host_key: u64, k_out: &mut [u8], count: &mut u64) -> u64 {
    unsafe {
        c::castulfrisa_verdict(
            exchange.as_mut_ptr(), exchange.len() as u64, room.as_mut_ptr(), room.len() as u64,
            signature, host_key, k_out.as_mut_ptr(), k_out.len() as u64, count,
        )
    }
}

/// A complete exchange begins again in its room.
pub fn again(exchange: &mut [u8], room: &mut [u8], method: u64, ic: &[u8], is: &[u8]) -> u64 {
    unsafe {
        c::castulfrisa_again(
            exchange.as_mut_ptr(), exchange.len() as u64, room.as_mut_ptr(), room.len() as u64,
            method,
            ic.as_ptr(), ic.len() as u64,
            is.as_ptr(), is.len() as u64,
        )
    }
}

// ---- calls on an exchange that are no steps

/// What `read_init` would answer, and C of an INIT that it would accept.
pub fn init_c(exchange: &[u8], room: &[u8], payload: &[u8], value: &mut Part) -> u64 {
    unsafe {
        c::castulfrisa_init_c(
            exchange.as_ptr(), exchange.len() as u64, room.as_ptr(), room.len() as u64,
            payload.as_ptr(), payload.len() as u64, value,
        )
    }
}

/// What `read_reply` would answer, and K_S of a REPLY that it would accept.
pub fn reply_host_key(exchange: &[u8], room: &[u8], payload: &[u8], host_key: &mut Part) -> u64 {
    unsafe {
        c::castulfrisa_reply_host_key(
            exchange.as_ptr(), exchange.len() as u64, room.as_ptr(), room.len() as u64,
            payload.as_ptr(), payload.len() as u64, host_key,
        )
    }
}

/// Likewise, and S.
pub fn reply_s(exchange: &[u8], room: &[u8], payload: &[u8], value: &mut Part) -> u64 {
    unsafe {
        c::castulfrisa_reply_s(
            exchange.as_ptr(), exchange.len() as u64, room.as_ptr(), room.len() as u64,
            payload.as_ptr(), payload.len() as u64, value,
        )
    }
}

/// Likewise, and the signature.
pub fn reply_signature(exchange: &[u8], room: &[u8], payload: &[u8], signature: &mut Part) -> u64 {
    unsafe {
        c::castulfrisa_reply_signature(
            exchange.as_ptr(), exchange.len() as u64, room.as_ptr(), room.len() as u64,
            payload.as_ptr(), payload.len() as u64, signature,
        )
    }
}

/// How far an exchange has come.
pub fn state(exchange: &[u8], told: &mut Progress) -> u64 {
    unsafe { c::castulfrisa_state(exchange.as_ptr(), exchange.len() as u64, told) }
}

/// The session identifier, zeros after its own bytes, its length, and how many exchanges were completed.
pub fn session_id(exchange: &[u8], told: &mut Session, id: &mut [u8; H_SIZE]) -> u64 {
    unsafe { c::castulfrisa_session_id(exchange.as_ptr(), exchange.len() as u64, told, id.as_mut_ptr()) }
}

/// A key of a complete exchange, `length` bytes of it written at the beginning of `key`.
pub fn derive(exchange: &[u8], letter: u64, length: u64, key: &mut [u8]) -> u64 {
    unsafe {
        c::castulfrisa_derive(exchange.as_ptr(), exchange.len() as u64, letter, length, key.as_mut_ptr(), key.len() as u64)
    }
}

// ---- hashes

/// Starts a hash.
pub fn hash_start(hash: &mut [u8], kind: u64) -> u64 {
    unsafe { c::castulfrisa_hash_start(hash.as_mut_ptr(), hash.len() as u64, kind) }
}

/// Feeds a part.
pub fn hash_feed(hash: &mut [u8], part: &[u8]) -> u64 {
    unsafe { c::castulfrisa_hash_feed(hash.as_mut_ptr(), hash.len() as u64, part.as_ptr(), part.len() as u64) }
}

/// The digest of what was fed.
pub fn hash_finish(hash: &[u8], digest: &mut [u8; H_SIZE]) -> u64 {
    unsafe { c::castulfrisa_hash_finish(hash.as_ptr(), hash.len() as u64, digest.as_mut_ptr()) }
}

// ---- for the host

/// Fills a buffer with zeros, out of this compiler's sight.
pub fn wipe(buffer: &mut [u8]) {
    unsafe { c::castulfrisa_wipe(buffer.as_mut_ptr(), buffer.len() as u64) }
}

/// The archive's version.
pub fn version() -> u64 {
    unsafe { c::castulfrisa_version() }
}
