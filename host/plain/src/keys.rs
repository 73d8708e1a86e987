//! The six keys of a connection (RFC 4253, section 7.2).

use crate::exchange::{completed, Completed, Exchange};
use crate::sha2::hash_start;

/// The longest key that is derived.
pub const KEY_MOST: usize = 128;

/// A letter's key, as many bytes of it as the output has: the beginning of K1 || K2 || K3 .., where K1 is the hash of
/// K || H || letter || identifier, and each one behind it that of K || H || all ones ahead of it. K is in its form, with
/// its length bytes. Nothing is written for a kind of hash that there is not.
pub fn key_of(kind: u8, k: &[u8], h: &[u8], letter: u8, identifier: &[u8], key: &mut [u8]) {
    let mut made = 0;
    while made < key.len() {
        let (number, mut hash) = hash_start(kind);
        if number != 0 {
            return;
        }
        hash.feed(k);
        hash.feed(h);
        if made == 0 {
            hash.feed(&[letter]);
            hash.feed(identifier);
        } else {
            hash.feed(&key[..made]);
        }
        let (_, digest) = hash.finish();
        let more = usize::from(kind).min(key.len() - made);
        key[made..made + more].copy_from_slice(&digest[..more]);
        made += more;
    }
}

/// Derives a key of a complete exchange to the beginning of an output, whose other bytes stay; on a refusal all of them
/// do. Judges 1, 4, 5. The hash is the running method's; the session identifier has its own length, by the first one's.
pub fn derive(e: &Exchange, letter: u8, length: usize, out: &mut [u8]) -> u8 {
    let Some(Completed { row, k, h, identifier }) = completed(e) else {
        return 1;
    };
    if !(b'A'..=b'F').contains(&letter) || !(1..=KEY_MOST).contains(&length) {
        return 4;
    }
    let Some(key) = out.get_mut(..length) else {
        return 5;
    };
    key_of(row.digest_len as u8, k, h, letter, identifier, key);
    0
}
