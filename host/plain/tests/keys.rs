//! The six keys: published keys of RFC 4253, section 7.2, what is refused, and H in the record.

use plain::*;

const NIST: &str = include_str!("../../../tests/vectors/sshkdf-nist.txt");
const OPENSSL: &str = include_str!("../../../tests/vectors/sshkdf-openssl.txt");
const ROLES: [u8; 2] = [1, 2];
const LETTERS: std::ops::RangeInclusive<u8> = b'A'..=b'F';

/// A published key, and what it is derived from.
struct Vector {
    kind: u8,
    k: Vec<u8>,
    h: Vec<u8>,
    letter: u8,
    identifier: Vec<u8>,
    key: Vec<u8>,
}

fn bytes(hex: &str) -> Vec<u8> {
    (0..hex.len()).step_by(2).map(|at| u8::from_str_radix(&hex[at..at + 2], 16).unwrap()).collect()
}

/// Paragraphs of lines `name = value`, the value of a control as `name:value`.
fn vectors(text: &str) -> Vec<Vector> {
    let of = |paragraph: &str| {
        let value = |name: &str| {
            let line = paragraph.lines().find_map(|line| line.strip_prefix(name)?.strip_prefix(" = "));
            let value = line.unwrap_or_else(|| panic!("no {name} in {paragraph}"));
            value.rsplit(':').next().unwrap().to_string()
        };
        let kind = match value("Ctrl.digest").as_str() {
            "SHA256" => 32,
            "SHA384" => 48,
            "SHA512" => 64,
            other => panic!("the digest {other}"),
        };
        let [k, h, identifier, key] =
            ["Ctrl.hexkey", "Ctrl.hexxcghash", "Ctrl.hexsession_id", "Output"].map(|name| bytes(&value(name)));
        Vector { kind, k, h, letter: value("Ctrl.type").as_bytes()[0], identifier, key }
    };
    text.split("\n\n").filter(|paragraph| paragraph.contains("KDF = ")).map(of).collect()
}

fn row(number: u8) -> &'static Method {
    method(number).unwrap()
}

/// The shortest and the longest body of K in a method.
fn k_lens(number: u8) -> (usize, usize) {
    let row = row(number);
    match number {
        1..=3 => (1, row.x_len + 1),
        4..=6 => (0, row.x_len + 1),
        _ => (row.digest_len, row.digest_len),
    }
}

/// A complete record that nobody's steps made, with this K, in its form, this H and this session identifier.
fn complete(role: u8, number: u8, k: &[u8], h: &[u8], identifier: &[u8]) -> Exchange {
    let lens = [9, 10, 100, 200, 51, row(number).c_len, row(number).s_len];
    let session = Session { id: [0xbb; H], id_len: identifier.len(), completed: 1 };
    let (stage, k_record) = (Stage::Complete, [0xcc; K_RECORD]);
    let mut e = Exchange { role, method: number, stage, lens, k: k_record, h: [0xdd; H], session };
    e.k[..k.len()].copy_from_slice(k);
    e.h[..h.len()].copy_from_slice(h);
    e.session.id[..identifier.len()].copy_from_slice(identifier);
    e
}

/// One with a K whose body has this length, also one that no method has, and an identifier of another hash than its own.
fn with_k(role: u8, number: u8, len: u32) -> Exchange {
    let other = if row(number).digest_len == 48 { 64 } else { 48 };
    complete(role, number, &len.to_be_bytes(), &[0x48; H], &[0x49; H][..other])
}

/// A key that must be given, in an output that is longer: the bytes behind it stay.
fn derived(e: &Exchange, letter: u8, length: usize) -> Vec<u8> {
    let mut out = vec![0xa5; length + 3];
    assert_eq!(derive(e, letter, length, &mut out), 0);
    assert_eq!(out.split_off(length), [0xa5; 3]);
    out
}

/// A refusal, for the longest output too: all of it stays.
fn refused(number: u8, e: &Exchange, letter: u8, length: usize, out: usize) {
    let mut out = vec![0xa5; out];
    assert_eq!(derive(e, letter, length, &mut out), number, "{letter} {length}");
    assert!(out.iter().all(|&byte| byte == 0xa5));
}

#[test]
fn published_keys() {
    let all = [vectors(NIST), vectors(OPENSSL)];
    assert_eq!(all.each_ref().map(Vec::len), [180, 56]);
    for v in all.iter().flatten() {
        // and every beginning of it
        for length in 1..=v.key.len() {
            let mut key = vec![0; length];
            key_of(v.kind, &v.k, &v.h, v.letter, &v.identifier, &mut key);
            assert_eq!(key, v.key[..length]);
        }
    }
}

/// Each in every method that has its hash and takes its K, with its identifier: the record's H, another of that length,
/// or one of another hash.
#[test]
fn published_keys_of_a_record() {
    let (mut of_h, mut of_length, mut of_another) = (0, 0, 0);
    for v in vectors(NIST).into_iter().chain(vectors(OPENSSL)) {
        for number in 1..=9 {
            let (least, most) = k_lens(number);
            if row(number).digest_len != usize::from(v.kind) || !(4 + least..=4 + most).contains(&v.k.len()) {
                continue;
            }
            for role in ROLES {
                assert_eq!(derived(&complete(role, number, &v.k, &v.h, &v.identifier), v.letter, v.key.len()), v.key);
                of_h += u32::from(v.identifier == v.h);
                of_length += u32::from(v.identifier != v.h && v.identifier.len() == v.h.len());
                of_another += u32::from(v.identifier.len() != v.h.len());
            }
        }
    }
    assert_eq!((of_h, of_length, of_another), (2 * 56, 2 * 30, 2 * 48));
}

#[test]
fn a_kind_of_hash_that_there_is_not() {
    let mut key = [7; 5];
    key_of(20, b"k", b"h", b'A', b"h", &mut key);
    assert_eq!(key, [7; 5]);
}

/// By the words of the section, from hashes of whole messages.
fn by_hand(e: &Exchange, letter: u8, length: usize) -> Vec<u8> {
    let kind = row(e.method).digest_len;
    let k = &e.k[..4 + usize::from(e.k[3])];
    let hashed = |message: Vec<u8>| {
        let (_, mut hash) = hash_start(kind as u8);
        assert_eq!(hash.feed(&message), 0);
        hash.finish().1[..kind].to_vec()
    };
    let h = &e.h[..kind];
    let mut all = hashed([k, h, &[letter], &e.session.id[..e.session.id_len]].concat());
    while all.len() < length {
        all = [all.clone(), hashed([k, h, &all].concat())].concat();
    }
    all.truncate(length);
    all
}

#[test]
fn every_letter_and_every_length() {
    for number in 1..=9 {
        let e = with_k(1 + number % 2, number, k_lens(number).1 as u32);
        for letter in 0..=255 {
            if LETTERS.contains(&letter) {
                let longest = derived(&e, letter, KEY_MOST);
                assert_eq!(longest, by_hand(&e, letter, KEY_MOST));
                // fewer bytes are a beginning of more
                for length in 1..=KEY_MOST {
                    assert_eq!(derived(&e, letter, length), longest[..length]);
                }
            } else {
                // a wrong letter in any length and output
                for length in [0, 1, 16, KEY_MOST, KEY_MOST + 1, usize::MAX] {
                    refused(4, &e, letter, length, 300);
                    refused(4, &e, letter, length, 0);
                }
            }
        }
        for letter in LETTERS {
            for length in [0, KEY_MOST + 1, 256 + 16, 1 << 32 | 16, usize::MAX] {
                refused(4, &e, letter, length, 300);
                refused(4, &e, letter, length, 0);
            }
            for length in 1..=KEY_MOST {
                refused(5, &e, letter, length, length - 1);
                refused(5, &e, letter, length, 0);
                // just long enough
                let mut out = vec![0; length];
                assert_eq!(derive(&e, letter, length, &mut out), 0);
            }
        }
    }
}

#[test]
fn what_is_not_judged() {
    for number in 1..=9 {
        let (kind, most) = (row(number).digest_len, k_lens(number).1);
        let e = with_k(1, number, most as u32);
        let mut other = e;
        other.k[4 + most..].fill(1);
        other.h[kind..].fill(1);
        other.session.id[e.session.id_len..].fill(1);
        other.session.completed = COMPLETED_MOST;
        assert_eq!(derived(&other, b'C', 100), derived(&e, b'C', 100));
        // of K's bytes, of H's and of the identifier's each is in the key, whatever it is; the role is not
        for at in 4..4 + most {
            let mut other = e;
            other.k[at] ^= 1;
            assert_ne!(derived(&other, b'C', 100), derived(&e, b'C', 100));
        }
        for at in 0..kind {
            let mut other = e;
            other.h[at] ^= 1;
            assert_ne!(derived(&other, b'C', 100), derived(&e, b'C', 100));
        }
        for at in 0..e.session.id_len {
            let mut other = e;
            other.session.id[at] ^= 1;
            assert_ne!(derived(&other, b'C', 100), derived(&e, b'C', 100));
        }
        assert_eq!(derived(&Exchange { role: 2, ..e }, b'C', 100), derived(&e, b'C', 100));
        // zeros too, where the length is one that K may have
        let k = [&[0, 0, 0, most as u8][..], &vec![0; most]].concat();
        for id_len in [32, 48, 64] {
            let zeros = complete(1, number, &k, &[0; H], &[0; H][..id_len]);
            assert_eq!(derived(&zeros, b'F', 128), by_hand(&zeros, b'F', 128));
        }
    }
}

/// 1, ahead of 4 and 5.
fn not_complete(e: &Exchange) {
    for (letter, length, out) in [(b'A', 16, 16), (b'A', 16, 0), (b'a', 16, 16), (b'A', 0, 16), (b'G', 129, 0)] {
        refused(1, e, letter, length, out);
    }
}

#[test]
fn an_exchange_that_is_not_complete_or_does_not_fit() {
    not_complete(&Exchange::default());
    for (number, role) in (1..=9).flat_map(|number| ROLES.map(|role| (number, role))) {
        let (least, most) = k_lens(number);
        let e = with_k(role, number, most as u32);
        derived(&e, b'A', 16);
        let stages = [Stage::Started, Stage::OwnC, Stage::Init, Stage::Reply, Stage::Secret, Stage::Failed(0)];
        for stage in stages.into_iter().chain([Stage::Failed(5), Stage::Failed(18)]) {
            not_complete(&Exchange { stage, ..e });
        }
        for role in (0..=255).filter(|role| !ROLES.contains(role)) {
            not_complete(&Exchange { role, ..e });
        }
        for method in (0..=255).filter(|method| !(1..=9).contains(method)) {
            not_complete(&Exchange { method, ..e });
        }
        for field in 0..7 {
            let (least, most) = match field {
                0 | 1 => (1, 253),
                2 | 3 => (1, 4096),
                4 => (1, 2048),
                _ => (e.lens[field], e.lens[field]),
            };
            for len in [least, most, least - 1, most + 1, 0, usize::MAX] {
                let mut forged = e;
                forged.lens[field] = len;
                if (least..=most).contains(&len) {
                    derived(&forged, b'A', 16);
                } else {
                    not_complete(&forged);
                }
            }
        }
        for len in (0..=80).chain([128, 255, 256 + most as u32, 1 << 24, u32::MAX - 3, u32::MAX]) {
            let forged = with_k(role, number, len);
            if (least..=most).contains(&(len as usize)) {
                assert_eq!(derived(&forged, b'E', 64), by_hand(&forged, b'E', 64));
            } else {
                not_complete(&forged);
            }
        }
    }
}

/// H is in the record from the secret step on, through the last one; a fault and a start leave zeros.
#[test]
fn h_in_the_record() {
    for number in 1..=9 {
        let row = row(number);
        let mut room = vec![0; ROOM];
        let (c, s, x) = (vec![4; row.c_len], vec![4; row.s_len], vec![9; row.x_len]);
        let (kem, k_pq) = if row.hybrid { (Kem::Done, &[6; K_PQ][..]) } else { (Kem::Absent, &[][..]) };
        let given = Classical::Given(x.len());
        let begun = |room: &mut [u8]| {
            let e = start(2, number, b"c", b"s", &[20], &[20], room).exchange;
            let init = [&[30][..], &(c.len() as u32).to_be_bytes(), &c].concat();
            read_init(e, room, &init).exchange
        };
        let e = begun(&mut room);
        assert_eq!(e.h, [0; H]);
        let short = take_secret(e, &mut room, given, &x[1..], kem, k_pq, b"k", &s);
        assert_eq!((short.number, short.exchange.h), (4, [0; H]));
        let answer = take_secret(e, &mut room, given, &x, kem, k_pq, b"k", &s);
        let secret = answer.exchange;
        assert_eq!((answer.number, secret.h), (0, answer.h));
        assert!(secret.h != [0; H] && secret.h[row.digest_len..].iter().all(|&byte| byte == 0));
        not_complete(&secret);

        let done = sign(secret, &room, b"g", &mut [0; REPLY_OUT], &mut [0; K_RECORD]).exchange;
        assert_eq!((done.stage, done.h), (Stage::Complete, secret.h));
        for letter in LETTERS {
            assert_eq!(derived(&done, letter, 96), by_hand(&done, letter, 96));
        }
        // a client's last step says no
        let client = Exchange { role: 1, ..secret };
        let failed = verdict(client, &mut room, true, false, &mut [0; K_RECORD]).exchange;
        assert_eq!((failed.stage, failed.h), (Stage::Failed(18), [0; H]));
        not_complete(&failed);

        assert_eq!(start(2, number, b"c", b"s", &[20], &[20], &mut room).exchange.h, [0; H]);
        assert_eq!(start(2, 0, b"c", b"s", &[20], &[20], &mut room).exchange.h, [0; H]);
        // a record that others wrote H to: steps ahead of the secret step leave it, and that step overwrites it
        let e = Exchange { h: [0xee; H], ..start(2, number, b"c", b"s", &[20], &[20], &mut room).exchange };
        let init = [&[30][..], &(c.len() as u32).to_be_bytes(), &c].concat();
        let e = read_init(e, &mut room, &init).exchange;
        assert_eq!(e.h, [0xee; H]);
        assert_eq!(take_secret(e, &mut room, given, &x, kem, k_pq, b"k", &s).exchange.h, secret.h);
    }
}
