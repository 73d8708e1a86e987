//! The specification's worked examples, whole exchanges of a client and a server with each other, and forged records.

use plain::*;

const CLIENT: u8 = 1;
const SERVER: u8 = 2;
const V_C: &[u8] = b"SSH-2.0-client";
const V_S: &[u8] = b"SSH-2.0-server";
const I_C: &[u8] = &[20, 1, 2, 3];
const I_S: &[u8] = &[20, 9, 8];
const NOTHING: Part = Part { start: 0, len: 0 };

fn string(body: &[u8]) -> Vec<u8> {
    [&(body.len() as u32).to_be_bytes(), body].concat()
}

fn row(number: u8) -> &'static Method {
    method(number).unwrap()
}

/// A value of some bytes that has a NIST point's lead byte where the method wants one.
fn value(len: usize, lead_at: usize, nist: bool, fill: u8) -> Vec<u8> {
    let mut value: Vec<u8> = (0..len).map(|at| fill.wrapping_add((at * 7) as u8)).collect();
    if nist {
        value[lead_at] = 4;
    }
    value
}

fn c_value(number: u8) -> Vec<u8> {
    value(row(number).c_len, row(number).c_classical, row(number).nist, 0x30)
}

fn s_value(number: u8) -> Vec<u8> {
    value(row(number).s_len, row(number).s_classical, row(number).nist, 0x91)
}

fn init(c: &[u8]) -> Vec<u8> {
    [vec![30], string(c)].concat()
}

fn reply(k_s: &[u8], s: &[u8], signature: &[u8]) -> Vec<u8> {
    [vec![31], string(k_s), string(s), string(signature)].concat()
}

fn kem(number: u8) -> Kem {
    if row(number).hybrid {
        Kem::Done
    } else {
        Kem::Absent
    }
}

fn k_pq(number: u8) -> Vec<u8> {
    if row(number).hybrid {
        (0..32).map(|at| 0xe0 ^ at).collect()
    } else {
        vec![]
    }
}

/// The method's hash of parts joined.
fn hashed(number: u8, parts: &[&[u8]]) -> Vec<u8> {
    let (_, mut hash) = hash_start(row(number).digest_len as u8);
    assert_eq!(hash.feed(&parts.concat()), 0);
    hash.finish().1[..row(number).digest_len].to_vec()
}

/// H as it is handed out, and in the record: zeros after the digest.
fn is_h(answer: &Answer, number: u8, room: &[u8]) {
    let mut h = hashed(number, &[&room[..answer.count]]);
    h.resize(H, 0);
    assert_eq!(answer.h[..], h);
    assert_eq!(answer.exchange.h[..], h);
}

fn started(role: u8, number: u8, room: &mut [u8]) -> Exchange {
    let answer = start(role, number, V_C, V_S, I_C, I_S, room);
    assert_eq!((answer.number, answer.count, answer.second), (0, 0, 0));
    answer.exchange
}

fn server_at_init(number: u8, room: &mut [u8]) -> Exchange {
    let e = started(SERVER, number, room);
    let answer = read_init(e, room, &init(&c_value(number)));
    assert_eq!((answer.number, answer.count), (0, 0));
    answer.exchange
}

fn client_at_own_c(number: u8, room: &mut [u8]) -> Exchange {
    let e = started(CLIENT, number, room);
    let answer = own_c(e, room, &c_value(number), &mut [0; INIT_OUT]);
    assert_eq!(answer.number, 0);
    answer.exchange
}

/// K of a server's secret step, or its refusal.
fn k_of(number: u8, x: &[u8]) -> Result<Vec<u8>, u8> {
    let mut room = vec![0; ROOM];
    let e = server_at_init(number, &mut room);
    let given = Classical::Given(x.len());
    let answer = take_secret(e, &mut room, given, x, kem(number), &k_pq(number), b"key", &s_value(number));
    if answer.number != 0 {
        return Err(answer.number);
    }
    let k = &answer.exchange.k;
    let len = 4 + u32::from_be_bytes(k[..4].try_into().unwrap()) as usize;
    assert!(k[len..].iter().all(|&byte| byte == 0));
    assert_eq!(&room[answer.count - len..answer.count], &k[..len]);
    is_h(&answer, number, &room);
    Ok(k[..len].to_vec())
}

fn x32(first: &[u8], last: u8) -> Vec<u8> {
    let mut x = vec![0; 32];
    x[..first.len()].copy_from_slice(first);
    x[31] = last;
    x
}

#[test]
fn k_from_x() {
    assert_eq!(k_of(4, &x32(&[], 1)), Ok(vec![0, 0, 0, 1, 1]));
    assert_eq!(k_of(4, &x32(&[], 0)), Ok(vec![0, 0, 0, 0]));
    assert_eq!(k_of(1, &x32(&[], 0)), Err(16));
    assert_eq!(k_of(9, &x32(&[], 0)), Err(16));
    for (first, body) in [
        (&[0x7f][..], x32(&[0x7f], 9)),
        (&[0x80][..], [vec![0], x32(&[0x80], 9)].concat()),
        (&[0x00, 0x7f][..], x32(&[0x00, 0x7f], 9)[1..].to_vec()),
        (&[0x00, 0x80][..], x32(&[0x00, 0x80], 9)),
    ] {
        assert_eq!(k_of(4, &x32(first, 9)), Ok(string(&body)));
    }
    assert_eq!(k_of(4, &x32(&[0x7f], 0)).unwrap().len(), 4 + 32);
    assert_eq!(k_of(4, &x32(&[0x80], 0)).unwrap()[..6], [0, 0, 0, 33, 0, 0x80]);
    assert_eq!(k_of(4, &x32(&[0x00, 0x7f], 0)).unwrap()[..5], [0, 0, 0, 31, 0x7f]);
    assert_eq!(k_of(4, &x32(&[0x00, 0x80], 0)).unwrap()[..6], [0, 0, 0, 32, 0, 0x80]);
}

#[test]
fn mpints_and_strings() {
    let mut out = [0xee; 8];
    assert_eq!(write_mpint(&mut out, &[0xff, 0x80]), Written { number: 0, count: 5 });
    assert_eq!(out, [0, 0, 0, 1, 0x80, 0xee, 0xee, 0xee]);
    assert_eq!(write_mpint(&mut out, &[0xff, 0xff, 0x7f]), Written { number: 0, count: 6 });
    assert_eq!(out[..6], [0, 0, 0, 2, 0xff, 0x7f]);
    assert_eq!(read_mpint(&[0, 0, 0, 2, 0x00, 0x7f]), MpintRead { number: 22, ..MpintRead::default() });
    assert_eq!(write_string(&mut out, b"ab"), Written { number: 0, count: 6 });
    assert_eq!(out, [0, 0, 0, 2, 0x61, 0x62, 0xee, 0xee]);
}

#[test]
fn reply_cut_in_its_third_length() {
    let mut room = vec![0xaa; ROOM];
    let e = client_at_own_c(4, &mut room);
    let whole = reply(b"key", &s_value(4), b"signature");
    let cut = &whole[..whole.len() - 9 - 2];
    assert_eq!(reply_parts(&e, &room, cut), [NOTHING; 3]);
    let answer = read_reply(e, &mut room, cut);
    assert_eq!((answer.number, answer.position), (12, whole.len() - 9 - 4));
    let failed = Exchange { role: CLIENT, method: 4, stage: Stage::Failed(12), ..Exchange::default() };
    assert_eq!(answer.exchange, failed);
    assert!(room.iter().all(|&byte| byte == 0));
}

#[test]
fn published_mpint_examples() {
    let examples: [(&[u8], &[u8], i8); 5] = [
        (&[], &[0, 0, 0, 0], 0),
        (
            &[0x09, 0xa3, 0x78, 0xf9, 0xb2, 0xe3, 0x32, 0xa7],
            &[0, 0, 0, 8, 0x09, 0xa3, 0x78, 0xf9, 0xb2, 0xe3, 0x32, 0xa7],
            1,
        ),
        (&[0x00, 0x80], &[0, 0, 0, 2, 0x00, 0x80], 1),
        (&[0xed, 0xcc], &[0, 0, 0, 2, 0xed, 0xcc], -1),
        (&[0xff, 0x21, 0x52, 0x41, 0x11], &[0, 0, 0, 5, 0xff, 0x21, 0x52, 0x41, 0x11], -1),
    ];
    for (number, wire, sign) in examples {
        let pad = if sign < 0 { 0xff } else { 0 };
        for padding in 0..3 {
            let mut out = vec![0x55; wire.len()];
            let input = [&vec![pad; padding], number].concat();
            assert_eq!(write_mpint(&mut out, &input), Written { number: 0, count: wire.len() });
            assert_eq!(out, wire);
        }
        let read = read_mpint(&[wire, &[1, 2]].concat());
        assert_eq!((read.number, read.sign), (0, sign));
        assert_eq!(read.body, Part { start: 4, len: wire.len() - 4 });
        assert_eq!(read.rest, Part { start: wire.len(), len: 2 });
    }
}

#[test]
fn strings_and_mpints_refused() {
    for input in [&[][..], &[0, 0, 0], &[0, 0, 0, 1], &[0xff, 0xff, 0xff, 0xfd, 1, 2, 3, 4], &[0, 0, 0, 2, 0]] {
        assert_eq!(read_string(input), StringRead { number: 12, ..StringRead::default() });
        assert_eq!(read_mpint(input), MpintRead { number: 12, ..MpintRead::default() });
    }
    for body in [&[0][..], &[0xff, 0xff], &[0x00, 0x7f], &[0xff, 0x80], &[0, 0]] {
        assert_eq!(read_mpint(&string(body)).number, 22);
    }
    for body in [&[0x00, 0x80][..], &[0xff, 0x7f], &[0xff], &[0x01]] {
        assert_eq!(read_mpint(&string(body)).number, 0);
    }
    let mut out = [7; 5];
    assert_eq!(write_string(&mut out, b"ab"), Written { number: 5, count: 0 });
    assert_eq!(write_string(&mut out[..3], b""), Written { number: 5, count: 0 });
    assert_eq!(write_mpint(&mut out, &[1, 2]), Written { number: 5, count: 0 });
    assert_eq!(out, [7; 5]);
    assert_eq!(write_mpint(&mut out, &[0, 0, 0]), Written { number: 0, count: 4 });
    assert_eq!(write_mpint(&mut out, &[0xff; 9]), Written { number: 0, count: 5 });
    assert_eq!(out, [0, 0, 0, 1, 0xff]);
}

#[test]
fn sizes_and_the_method_table() {
    assert_eq!((ROOM, INIT_OUT, REPLY_OUT, K_RECORD), (14_156, 1_670, 5_774, 71));
    // C, S, X, digest, K is a string, zero check, NIST point, length of the KEM part in C and in S.
    let table = [
        (32, 32, 32, 32, false, true, false, 0, 0),
        (32, 32, 32, 32, false, true, false, 0, 0),
        (56, 56, 56, 64, false, true, false, 0, 0),
        (65, 65, 32, 32, false, false, true, 0, 0),
        (97, 97, 48, 48, false, false, true, 0, 0),
        (133, 133, 66, 64, false, false, true, 0, 0),
        (1249, 1153, 32, 32, true, false, true, 1184, 1088),
        (1665, 1665, 48, 48, true, false, true, 1568, 1568),
        (1216, 1120, 32, 32, true, true, false, 1184, 1088),
    ];
    for (number, line) in (1..).zip(table) {
        let Method { c_len, s_len, x_len, digest_len, hybrid, zero_check, nist, c_classical, s_classical, .. } =
            *row(number);
        assert_eq!((c_len, s_len, x_len, digest_len, hybrid, zero_check, nist, c_classical, s_classical), line);
    }
}

#[test]
fn the_nine_names() {
    for number in 1..=9 {
        assert_eq!(method_number(row(number).name), number);
    }
    assert_eq!((method_number(b""), method_number(b"curve25519-sha25"), method_number(b"ext-info-c")), (0, 0, 0));
    assert!(method(0).is_none() && method(10).is_none() && method(255).is_none());
}

/// A KEXINIT payload with these kex and host key names and eight other lists.
fn kexinit(kex: &[u8], keys: &[u8], other: &[u8], follows: u8) -> Vec<u8> {
    let mut payload = vec![20; 17];
    payload.extend(string(kex));
    payload.extend(string(keys));
    for _ in 0..8 {
        payload.extend(string(other));
    }
    payload.extend([follows, 1, 2, 3, 4]);
    payload
}

fn names(payload: &[u8], list: usize) -> (u8, Vec<Part>, u8) {
    let opened = open_list(payload, list);
    let mut found = vec![];
    let mut next = next_name(payload, opened.cursor);
    while next.found {
        assert_eq!(next.number, 0);
        found.push(next.name);
        next = next_name(payload, next.cursor);
    }
    assert_eq!(next.name, NOTHING);
    assert_eq!(next_name(payload, next.cursor), next);
    (opened.number, found, next.number)
}

#[test]
fn kexinit_of_ten_empty_lists() {
    let mut out = [0xcc; 63];
    assert_eq!(write_kexinit(&mut out, &[9; 16], &[&[]; 10], true, 7), Written { number: 0, count: 62 });
    assert_eq!(out[62], 0xcc);
    let opened = open_list(&out[..62], 10);
    assert_eq!((opened.number, opened.follows, opened.reserved), (0, true, 7));
    assert_eq!(opened.cookie, Part { start: 1, len: 16 });
    assert_eq!(opened.cursor, Cursor { at: 1, end: 0 });
    let refused = |number| Opened { number, cursor: Cursor { at: 1, end: 0 }, ..Opened::default() };
    let broken = |number, position| Opened { position, ..refused(number) };
    assert_eq!(open_list(&out[..61], 1), broken(12, 58));
    assert_eq!(open_list(&out[..63], 1), broken(13, 62));
    assert_eq!(open_list(&out[..62], 0), refused(4));
    assert_eq!(open_list(&[], 11), refused(4));
    assert_eq!(open_list(&[], 1), refused(10));
    assert_eq!(open_list(&[20; 4097], 1), refused(10));
    assert_eq!(open_list(&[21], 1), refused(11));
    for cut in 1..62 {
        // the cookie, ten strings without a body, the boolean and the reserved number
        let position = match cut {
            ..17 => 1,
            17..57 => 17 + (cut - 17) / 4 * 4,
            57 => 57,
            _ => 58,
        };
        assert_eq!(open_list(&out[..cut], 1), broken(12, position));
    }
}

#[test]
fn names_are_yielded_one_at_a_time() {
    let part = |start, len| Part { start, len };
    let list = |keys: &[u8]| names(&kexinit(b"a", keys, b"", 0), 2);
    assert_eq!(list(b""), (0, vec![], 0));
    assert_eq!(list(b"ab,c"), (0, vec![part(26, 2), part(29, 1)], 0));
    assert_eq!(list(b"a,"), (0, vec![part(26, 1)], 19));
    assert_eq!(list(b",a"), (0, vec![], 19));
    assert_eq!(list(b","), (0, vec![], 19));
    assert_eq!(list(b"a,,b"), (0, vec![part(26, 1)], 19));
    assert_eq!(list(b"a,b c"), (0, vec![part(26, 1)], 19));
    assert_eq!(list(b"a,\x7f"), (0, vec![part(26, 1)], 19));
    assert_eq!(list(b"!,~"), (0, vec![part(26, 1), part(28, 1)], 0));
    assert_eq!(list(&[b'x'; 64]), (0, vec![part(26, 64)], 0));
    assert_eq!(list(&[b'x'; 65]), (0, vec![], 19));
    for cursor in [(0, 9), (9, 8), (usize::MAX, usize::MAX), (0, usize::MAX), (usize::MAX, 0)] {
        let cursor = Cursor { at: cursor.0, end: cursor.1 };
        assert_eq!(next_name(b"abcdefgh", cursor), Next { cursor, ..Next::default() });
    }
    let cursor = Cursor { at: 8, end: 8 };
    assert_eq!(next_name(b"abcdefgh", cursor), Next { number: 19, cursor, ..Next::default() });
}

#[test]
fn kexinit_written_and_refused() {
    let mut lists: [&[u8]; 10] = [b"a,b"; 10];
    let mut out = vec![0x11; 100];
    assert_eq!(write_kexinit(&mut out, &[20; 16], &lists, false, 0x0102_0304), Written { number: 0, count: 92 });
    assert_eq!(out[..92], kexinit(b"a,b", b"a,b", b"a,b", 0));
    assert_eq!(out[92..], [0x11; 8]);
    let before = out.clone();
    let refused = |number| Written { number, count: 0 };
    assert_eq!(write_kexinit(&mut out[..92], &[20; 16], &lists, false, 0x0102_0304).number, 0);
    assert_eq!(write_kexinit(&mut out[..91], &[20; 16], &lists, false, 0), refused(5));
    assert_eq!(write_kexinit(&mut out[..0], &[20; 15], &lists, false, 0), refused(4));
    lists[9] = b"a,";
    assert_eq!(write_kexinit(&mut out, &[20; 16], &lists, false, 0), refused(4));
    assert_eq!(out, before);

    let long = [b"x".repeat(64), b",".to_vec()].concat().repeat(63)[..4034].to_vec();
    let longer = [&long[..], b"x"].concat();
    let mut out = vec![0; 5000];
    lists = [b""; 10];
    lists[3] = &long;
    assert_eq!(write_kexinit(&mut out, &[20; 16], &lists, false, 0), Written { number: 0, count: 4096 });
    lists[3] = &longer;
    assert_eq!(write_kexinit(&mut out, &[20; 16], &lists, false, 0), refused(4));
}

#[test]
fn choices() {
    let refused = |number| Choice { number, ..Choice::default() };
    let client = kexinit(b"ext-info-c,curve448-sha512,ecdh-sha2-nistp256", b"rsa,ed", b"", 1);
    let server = kexinit(b"ecdh-sha2-nistp256,curve448-sha512,ext-info-c", b"ed,rsa", b"x,y", 1);
    let keys = 17 + 4 + 45 + 4;
    let chosen = Choice {
        number: 0,
        method: 3,
        host_key: Part { start: keys, len: 3 },
        ignore_client: true,
        ignore_server: true,
    };
    assert_eq!(choose(&client, &server), chosen);

    let guess = |kex: &[u8], keys: &[u8], follows| kexinit(kex, keys, b"", follows);
    let ignored = |client: &[u8], server: &[u8]| {
        let choice = choose(client, server);
        (choice.number, choice.ignore_client, choice.ignore_server)
    };
    let kex = b"curve448-sha512,ecdh-sha2-nistp256";
    assert_eq!(ignored(&guess(kex, b"a", 1), &guess(kex, b"a", 1)), (0, false, false));
    assert_eq!(ignored(&guess(kex, b"a", 255), &guess(kex, b"b,a", 0)), (0, true, false));
    assert_eq!(ignored(&guess(kex, b"a", 0), &guess(b"x,curve448-sha512", b"a", 2)), (0, false, true));

    assert_eq!(choose(&[], &[]), refused(10));
    assert_eq!(choose(&client, &[]), refused(10));
    assert_eq!(choose(&kexinit(b"a", b"a", b"a,", 0), &[]), refused(19));
    assert_eq!(choose(&client, &kexinit(b"a", b"a", b"a,", 0)), refused(19));
    assert_eq!(choose(&client, &kexinit(b"ext-info-c", b"", b"", 0)), refused(20));
    assert_eq!(choose(&client, &kexinit(b"curve448-sha512", b"ed2", b"", 0)), refused(21));
    let bare = kexinit(b"curve448-sha512", b"", b"", 0);
    assert_eq!(choose(&bare, &bare), refused(21));
    let empty = kexinit(b"", b"", b"", 0);
    assert_eq!(choose(&empty, &empty), refused(20));
}

#[test]
fn start_sizes() {
    let number = |role, method, v: &[u8], i: &[u8], room: usize| {
        let mut room = vec![0x77; room];
        let before = room.clone();
        let answer = start(role, method, v, V_S, I_C, i, &mut room);
        if answer.number != 0 {
            let failed = Exchange { stage: Stage::Failed(answer.number), ..Exchange::default() };
            assert_eq!(answer, Answer { number: answer.number, exchange: failed, ..Answer::default() });
            assert_eq!(room, before);
        }
        answer.number
    };
    assert_eq!(number(1, 1, &[b'v'; 253], I_S, ROOM), 0);
    assert_eq!(number(1, 1, &[b'v'; 254], I_S, ROOM), 4);
    assert_eq!(number(1, 1, V_C, I_S, 14_155), 3);
    assert_eq!(number(1, 1, V_C, I_S, 14_156), 0);
    assert_eq!(number(1, 1, b"", I_S, ROOM), 4);
    assert_eq!(number(1, 1, b"a\nb", I_S, ROOM), 4);
    assert_eq!(number(1, 1, b"a\rb", I_S, ROOM), 4);
    assert_eq!(number(1, 1, b"a\0b", I_S, ROOM), 4);
    assert_eq!(number(2, 9, V_C, &[20; 4096], ROOM), 0);
    assert_eq!(number(2, 9, V_C, &[20; 4097], ROOM), 4);
    assert_eq!(number(2, 9, V_C, &[], ROOM), 4);
    assert_eq!(number(2, 9, V_C, &[21], ROOM), 4);
    assert_eq!(number(0, 9, &[], &[], 0), 2);
    assert_eq!(number(3, 9, V_C, I_S, ROOM), 2);
    assert_eq!(number(1, 0, V_C, I_S, ROOM), 2);
    assert_eq!(number(1, 10, V_C, I_S, ROOM), 2);
    assert_eq!(number(1, 1, &[], &[], 0), 3);
}

#[test]
fn c_of_a_wrong_length_or_lead() {
    for (c, number) in [(31, 14), (33, 14), (32, 0)] {
        let mut room = vec![5; ROOM + 9];
        let e = started(SERVER, 1, &mut room);
        let payload = init(&vec![1; c]);
        let part = if number == 0 { Part { start: 5, len: 32 } } else { NOTHING };
        assert_eq!(init_c(&e, &room, &payload), part);
        assert_eq!(read_init(e, &mut room, &payload).number, number);
        assert_eq!(room.iter().all(|&byte| byte == 0), number != 0);

        let e = started(CLIENT, 1, &mut room);
        let before = room.clone();
        let answer = own_c(e, &mut room, &vec![1; c], &mut [0; INIT_OUT]);
        assert_eq!(answer.number, if number == 0 { 0 } else { 4 });
        assert_eq!(room == before && answer.exchange == e, number != 0);
    }
    for number in [4, 5, 6, 7, 8] {
        let mut room = vec![5; ROOM];
        let e = started(SERVER, number, &mut room);
        let mut c = c_value(number);
        c[row(number).c_classical] = 2;
        assert_eq!(read_init(e, &mut room, &init(&c)).number, 15);
        let e = started(CLIENT, number, &mut room);
        assert_eq!(own_c(e, &mut room, &c, &mut [0; INIT_OUT]).number, 4);
    }
}

#[test]
fn client_and_server_agree_in_every_method() {
    for number in 1..=9 {
        let row = row(number);
        let (c, s) = (c_value(number), s_value(number));
        let (k_s, signature) = (vec![0x4b; 51], vec![0x51; 83]);
        let x: Vec<u8> = (0..row.x_len).map(|at| 0x80 | at as u8).collect();
        let k =
            if row.hybrid { string(&hashed(number, &[&k_pq(number), &x])) } else { string(&[&[0], &x[..]].concat()) };
        let given = Classical::Given(row.x_len);
        let fields = |fields: &[&[u8]]| fields.iter().flat_map(|field| string(field)).collect::<Vec<u8>>();

        let mut client_room = vec![0xc1; ROOM + 100];
        let mut server_room = vec![0x5e; ROOM];
        let check = |room: &[u8], begin: &[u8], rest: u8| {
            assert_eq!(&room[..begin.len()], begin);
            assert!(room[begin.len()..].iter().all(|&byte| byte == rest));
        };

        let client = started(CLIENT, number, &mut client_room);
        let server = started(SERVER, number, &mut server_room);
        check(&client_room, &fields(&[V_C, V_S, I_C, I_S]), 0xc1);

        let short = Answer { number: 5, exchange: client, ..Answer::default() };
        assert_eq!(own_c(client, &mut client_room, &c, &mut [0; INIT_OUT - 1]), short);
        let mut out = vec![0xab; INIT_OUT + 1];
        let answer = own_c(client, &mut client_room, &c, &mut out);
        assert_eq!((answer.number, answer.count), (0, 5 + c.len()));
        check(&out, &init(&c), 0xab);
        check(&client_room, &fields(&[V_C, V_S, I_C, I_S, &c]), 0xc1);
        let client = answer.exchange;

        let message = &out[..answer.count];
        assert_eq!(init_c(&server, &server_room, message), Part { start: 5, len: c.len() });
        let answer = read_init(server, &mut server_room, message);
        assert_eq!((answer.number, answer.count), (0, 0));
        check(&server_room, &fields(&[V_C, V_S, I_C, I_S, &c]), 0x5e);
        let server = answer.exchange;

        let hash = [fields(&[V_C, V_S, I_C, I_S, &k_s, &c, &s]), k.clone()].concat();
        let answer = take_secret(server, &mut server_room, given, &x, kem(number), &k_pq(number), &k_s, &s);
        assert_eq!((answer.number, answer.count), (0, hash.len()));
        is_h(&answer, number, &hash);
        check(&server_room, &hash, 0x5e);
        let server = answer.exchange;

        let mut out = vec![0xab; REPLY_OUT];
        let mut k_out = [0xcd; 73];
        let answer = sign(server, &server_room, &signature, &mut out, &mut k_out);
        let message = reply(&k_s, &s, &signature);
        assert_eq!((answer.number, answer.count, answer.second), (0, message.len(), k.len()));
        check(&out, &message, 0xab);
        assert_eq!(&k_out[..k.len()], &k[..]);
        assert!(k_out[k.len()..71].iter().all(|&byte| byte == 0));
        assert_eq!(k_out[71..], [0xcd; 2]);
        let session = Session { id: server.h, id_len: row.digest_len, completed: 1 };
        assert_eq!(answer.exchange, Exchange { stage: Stage::Complete, session, ..server });
        check(&server_room, &hash, 0x5e);

        let at = [5, 5 + k_s.len() + 4, 5 + k_s.len() + 4 + s.len() + 4];
        let lens = [k_s.len(), s.len(), signature.len()];
        let parts = [0, 1, 2].map(|i| Part { start: at[i], len: lens[i] });
        assert_eq!(reply_parts(&client, &client_room, &message), parts);
        let answer = read_reply(client, &mut client_room, &message);
        assert_eq!((answer.number, answer.count), (0, 0));
        check(&client_room, &fields(&[V_C, V_S, I_C, I_S, &k_s, &c, &s]), 0xc1);
        let client = answer.exchange;

        // K_S and S handed in by a client are not looked at.
        let answer = take_secret(client, &mut client_room, given, &x, kem(number), &k_pq(number), b"", b"?");
        assert_eq!((answer.number, answer.count), (0, hash.len()));
        is_h(&answer, number, &hash);
        check(&client_room, &hash, 0xc1);
        let client = answer.exchange;
        assert_eq!(client.lens, server.lens);
        assert_eq!((client.k, client.h), (server.k, server.h));

        let mut again = [0xcd; 73];
        let answer = verdict(client, &mut client_room, true, true, &mut again);
        assert_eq!((answer.number, answer.count, answer.second), (0, k.len(), 0));
        assert_eq!(answer.exchange, Exchange { stage: Stage::Complete, session, ..client });
        assert_eq!(again, k_out);
        check(&client_room, &hash, 0xc1);
    }
}

#[test]
fn the_longest_exchange_fills_the_room() {
    let (v, i, k_s) = ([b'v'; 253], [20; 4096], [1; 2048]);
    let mut room = vec![0; ROOM];
    let e = start(SERVER, 8, &v, &v, &i, &i, &mut room).exchange;
    let message = init(&c_value(8));
    assert_eq!(message.len(), INIT_OUT);
    let e = read_init(e, &mut room, &message).exchange;
    let answer = take_secret(e, &mut room, Classical::Given(48), &[0; 48], Kem::Done, &k_pq(8), &k_s, &s_value(8));
    assert_eq!((answer.number, answer.count), (0, ROOM));
    let answer = sign(answer.exchange, &room, &[2; 2048], &mut [0; REPLY_OUT], &mut [0; K_RECORD]);
    assert_eq!((answer.number, answer.count, answer.second), (0, REPLY_OUT, 52));

    let e = Exchange { k: answer.exchange.k, ..e };
    assert_eq!(take_secret(e, &mut room, Classical::Given(48), &[0; 48], Kem::Done, &k_pq(8), &[], &[]).number, 4);
    let k = k_of(6, &[0xff; 66]).unwrap();
    assert_eq!(k.len(), K_RECORD);
}

/// The answers of the secret step, as a server and as a client where K_S and S are right.
fn secret(number: u8, classical: Classical, x: &[u8], kem: Kem, k_pq: &[u8], k_s: &[u8], s: &[u8]) -> u8 {
    let mut room = vec![0x3c; ROOM];
    let e = server_at_init(number, &mut room);
    let before = room.clone();
    let answer = take_secret(e, &mut room, classical, x, kem, k_pq, k_s, s);
    assert!(answer.number == 0 || answer.h == [0; H]);
    match answer.number {
        0 => is_h(&answer, number, &room),
        1..=9 => assert!(room == before && answer.exchange == e && answer.count == 0),
        fault => {
            assert!(room.iter().all(|&byte| byte == 0));
            let failed = Exchange { role: SERVER, method: number, stage: Stage::Failed(fault), ..Exchange::default() };
            assert_eq!(answer.exchange, failed);
        }
    }
    if k_s == b"key" && s == s_value(number) {
        let e = client_at_own_c(number, &mut room);
        let e = read_reply(e, &mut room, &reply(k_s, s, b"signature")).exchange;
        let client = take_secret(e, &mut room, classical, x, kem, k_pq, b"", b"");
        assert_eq!((client.number, client.count, client.h), (answer.number, answer.count, answer.h));
    }
    answer.number
}

#[test]
fn outcomes_in_their_order() {
    use Classical::{Failed, Given};
    let x = [7; 32];
    let (s1, s7, s8, s9) = (s_value(1), s_value(7), s_value(8), s_value(9));
    let q = [3; 33];
    let (d, long) = (&q[..32], &q[..]);
    assert_eq!(secret(1, Given(32), &x, Kem::Absent, &[], b"key", &s1), 0);
    assert_eq!(secret(1, Given(31), &x, Kem::Absent, &[], b"key", &s1), 4);
    assert_eq!(secret(1, Given(32), &x[1..], Kem::Absent, &[], b"key", &s1), 4);
    assert_eq!(secret(1, Given(31), &x[1..], Kem::Absent, &[], b"key", &s1), 4);
    assert_eq!(secret(1, Given(usize::MAX), &x, Kem::Absent, &[], b"key", &s1), 4);
    assert_eq!(secret(1, Given(32), &x, Kem::Done, &[], b"key", &s1), 4);
    assert_eq!(secret(1, Given(32), &x, Kem::Done, d, b"key", &s1), 4);
    assert_eq!(secret(1, Given(32), &x, Kem::Failed, &[], b"key", &s1), 4);
    assert_eq!(secret(1, Given(32), &x, Kem::Absent, d, b"key", &s1), 4);
    assert_eq!(secret(1, Failed, &x[..5], Kem::Absent, &[], b"key", &s1), 16);
    assert_eq!(secret(1, Failed, &[], Kem::Absent, d, b"key", &s1), 4);
    assert_eq!(secret(1, Failed, &[], Kem::Failed, &[], b"key", &s1), 4);
    assert_eq!(secret(1, Failed, &[], Kem::Absent, &[], b"", &s1), 4);
    assert_eq!(secret(1, Failed, &[], Kem::Absent, &[], b"key", &s1[1..]), 4);
    assert_eq!(secret(1, Given(32), &[0; 32], Kem::Absent, &[], &[1; 2049], &s1), 4);
    assert_eq!(secret(1, Given(32), &[0; 32], Kem::Absent, &[], &[1; 2048], &s1), 16);
    assert_eq!(secret(7, Given(32), &[0; 32], Kem::Done, d, b"key", &s7), 0);
    assert_eq!(secret(7, Given(32), &x, Kem::Absent, d, b"key", &s7), 4);
    assert_eq!(secret(7, Given(32), &x, Kem::Failed, d, b"key", &s7), 4);
    assert_eq!(secret(7, Given(32), &x, Kem::Failed, &[], b"key", &s7), 17);
    assert_eq!(secret(7, Failed, &x, Kem::Failed, &[], b"key", &s7), 16);
    assert_eq!(secret(7, Failed, &x, Kem::Failed, d, b"key", &s7), 4);
    // K_PQ goes by the KEM alone, whatever the classical outcome
    assert_eq!(secret(7, Failed, &x, Kem::Done, &[], b"key", &s7), 4);
    assert_eq!(secret(7, Failed, &x, Kem::Done, d, b"key", &s7), 16);
    assert_eq!(secret(7, Given(32), &x, Kem::Done, &d[1..], b"key", &s7), 4);
    assert_eq!(secret(7, Given(32), &x, Kem::Done, long, b"key", &s7), 4);
    assert_eq!(secret(8, Given(48), &[1; 48], Kem::Done, &[3; 48], b"key", &s8), 4);
    assert_eq!(secret(8, Given(48), &[1; 48], Kem::Done, d, b"key", &s8), 0);
    assert_eq!(secret(7, Given(32), &x, Kem::Done, d, b"key", &vec![5; 1153]), 4);
    assert_eq!(secret(9, Given(32), &[0; 32], Kem::Done, &[], b"key", &s9), 4);
    assert_eq!(secret(9, Given(32), &[0; 32], Kem::Done, d, b"key", &s9), 16);
    assert_eq!(secret(9, Given(32), &[0; 32], Kem::Failed, &[], b"key", &s9), 16);
}

#[test]
fn reply_in_its_order() {
    let number = |payload: &[u8]| {
        let mut room = vec![1; ROOM];
        let e = client_at_own_c(5, &mut room);
        let answer = read_reply(e, &mut room, payload);
        assert_eq!(answer.exchange.stage == Stage::Reply, answer.number == 0);
        answer.number
    };
    let s = s_value(5);
    let bad_lead = vec![3; 97];
    assert_eq!(number(&[]), 10);
    assert_eq!(number(&[31; 32_769]), 10);
    assert_eq!(number(&[30; 32_768]), 11);
    assert_eq!(number(&[31]), 12);
    assert_eq!(number(&[reply(b"", &s, b""), vec![0]].concat()), 13);
    assert_eq!(number(&reply(b"", &s, b"x")), 14);
    assert_eq!(number(&reply(b"k", &s, b"")), 14);
    assert_eq!(number(&reply(b"k", &bad_lead, b"")), 14);
    assert_eq!(number(&reply(b"k", &s[1..], b"x")), 14);
    assert_eq!(number(&reply(&[1; 2049], &s, b"x")), 14);
    assert_eq!(number(&reply(b"k", &s, &[1; 2049])), 14);
    assert_eq!(number(&reply(b"k", &bad_lead, b"x")), 15);
    assert_eq!(number(&reply(&[1; 2048], &s, &[1; 2048])), 0);
}

fn client_at_secret(number: u8, room: &mut [u8]) -> Exchange {
    let e = client_at_own_c(number, room);
    let e = read_reply(e, room, &reply(b"key", &s_value(number), b"signature")).exchange;
    let x = vec![0x11; row(number).x_len];
    let answer = take_secret(e, room, Classical::Given(x.len()), &x, kem(number), &k_pq(number), b"", b"");
    assert_eq!(answer.number, 0);
    answer.exchange
}

#[test]
fn last_steps_in_their_order() {
    let mut room = vec![8; ROOM + 3];
    let e = client_at_secret(3, &mut room);
    let unchanged = |number, exchange| Answer { number, exchange, ..Answer::default() };
    let before = room.clone();
    let mut k_out = [9; 71];
    assert_eq!(verdict(e, &mut room[..ROOM - 1], true, true, &mut k_out[..0]), unchanged(3, e));
    assert_eq!(verdict(e, &mut room, false, false, &mut k_out[..70]), unchanged(5, e));
    assert_eq!(room, before);
    for (signature, host_key) in [(false, true), (true, false), (false, false)] {
        let mut room = before.clone();
        let answer = verdict(e, &mut room, signature, host_key, &mut k_out);
        let failed = Exchange { role: CLIENT, method: 3, stage: Stage::Failed(18), ..Exchange::default() };
        assert_eq!(answer, unchanged(18, failed));
        assert!(room.iter().all(|&byte| byte == 0));
        assert_eq!(k_out, [9; 71]);
        assert_eq!(verdict(failed, &mut room, true, true, &mut k_out), unchanged(1, failed));
    }
    let done = verdict(e, &mut room, true, true, &mut k_out).exchange;
    assert_eq!(verdict(done, &mut room, true, true, &mut k_out), unchanged(1, done));
    assert_eq!(room, before);

    let e = Exchange { role: SERVER, ..e };
    let mut out = [9; REPLY_OUT];
    let mut k_out = [9; 71];
    assert_eq!(sign(e, &room[..9], b"", &mut [], &mut []), unchanged(3, e));
    assert_eq!(sign(e, &room, b"", &mut [], &mut []), unchanged(4, e));
    assert_eq!(sign(e, &room, &[1; 2049], &mut out, &mut k_out), unchanged(4, e));
    assert_eq!(sign(e, &room, b"s", &mut out[1..], &mut k_out), unchanged(5, e));
    assert_eq!(sign(e, &room, b"s", &mut out, &mut k_out[1..]), unchanged(5, e));
    assert!(out.iter().chain(&k_out).all(|&byte| byte == 9));
    assert_eq!(sign(e, &room, b"s", &mut out, &mut k_out).number, 0);
}

#[test]
fn bytes_are_taken_as_they_stand() {
    // Length bytes written over in the room move with C; REPLY's come from the recorded lengths.
    let mut room = vec![0; ROOM];
    let e = server_at_init(1, &mut room);
    let at = 16 + V_C.len() + V_S.len() + I_C.len() + I_S.len();
    room[at..at + 36].fill(0xee);
    let answer = take_secret(e, &mut room, Classical::Given(32), &[1; 32], Kem::Absent, &[], b"key", &s_value(1));
    let e = answer.exchange;
    is_h(&answer, 1, &room);
    assert_eq!(room[at..at + 7], *b"\0\0\0\x03key");
    assert_eq!(room[at + 7..at + 43], [0xee; 36]);
    room[at..at + 7].fill(0xdd);
    room[at + 43..at + 79].fill(0xcc);
    let mut out = [0; REPLY_OUT];
    let answer = sign(e, &room, b"sig", &mut out, &mut [0; 71]);
    assert_eq!(out[..answer.count], reply(&[0xdd; 3], &[0xcc; 32], b"sig"));
}

/// Every step on a record; each must answer 1 and change nothing.
fn no_step_is_due(e: Exchange) {
    let refused = Answer { number: 1, exchange: e, ..Answer::default() };
    let fresh = vec![0x6d; ROOM];
    let mut room = fresh.clone();
    let (mut out, mut k_out) = ([2; REPLY_OUT], [2; K_RECORD]);
    let number = if method(e.method).is_some() { e.method } else { 1 };
    let (c, s) = (c_value(number), s_value(number));
    let x = vec![1; row(number).x_len];
    let given = Classical::Given(x.len());
    let message = reply(b"key", &s, b"signature");
    assert_eq!(own_c(e, &mut room, &c, &mut out), refused);
    assert_eq!(init_c(&e, &room, &init(&c)), NOTHING);
    assert_eq!(read_init(e, &mut room, &init(&c)), refused);
    assert_eq!(reply_parts(&e, &room, &message), [NOTHING; 3]);
    assert_eq!(read_reply(e, &mut room, &message), refused);
    assert_eq!(take_secret(e, &mut room, given, &x, kem(number), &k_pq(number), b"key", &s), refused);
    assert_eq!(sign(e, &room, b"signature", &mut out, &mut k_out), refused);
    assert_eq!(verdict(e, &mut room, true, true, &mut k_out), refused);
    assert_eq!(again(e, number, I_C, I_S, &mut room), refused);
    assert!(room == fresh && out == [2; REPLY_OUT] && k_out == [2; K_RECORD]);
}

#[test]
fn forged_records_are_answered_1() {
    let mut room = vec![0; ROOM];
    for number in 1..=9 {
        let stages = [
            started(CLIENT, number, &mut room),
            started(SERVER, number, &mut room),
            client_at_own_c(number, &mut room),
            server_at_init(number, &mut room),
            client_at_secret(number, &mut room),
            Exchange { role: SERVER, ..client_at_secret(number, &mut room) },
        ];
        for e in stages {
            for role in [0, 3, 255] {
                no_step_is_due(Exchange { role, ..e });
            }
            for method in [0, 10, 255] {
                no_step_is_due(Exchange { method, ..e });
            }
            for stage in [Stage::Complete, Stage::Failed(0), Stage::Failed(12)] {
                no_step_is_due(Exchange { stage, ..e });
            }
            for field in 0..7 {
                let bad: &[usize] = match field {
                    0 | 1 => &[0, 254, usize::MAX],
                    2 | 3 => &[0, 4097, usize::MAX],
                    4 if e.lens[4] == 0 => &[1, usize::MAX],
                    4 => &[0, 2049, usize::MAX],
                    _ => &[31, 34, 1666, usize::MAX],
                };
                for &len in bad {
                    let mut forged = e;
                    forged.lens[field] = len;
                    no_step_is_due(forged);
                }
            }
        }
        no_step_is_due(Exchange { stage: Stage::OwnC, role: SERVER, ..stages[2] });
        no_step_is_due(Exchange { stage: Stage::Init, role: CLIENT, ..stages[3] });
        let reply = Exchange { stage: Stage::Reply, ..stages[4] };
        no_step_is_due(Exchange { role: SERVER, ..reply });

        // K's length is judged before it is used, and only once K is there.
        let (least, most) = match number {
            1..=3 => (1, row(number).x_len + 1),
            4..=6 => (0, row(number).x_len + 1),
            _ => (row(number).digest_len, row(number).digest_len),
        };
        let with_k = |len: usize| {
            let mut e = stages[4];
            e.k = [0xff; K_RECORD];
            e.k[..4].copy_from_slice(&(len as u32).to_be_bytes());
            e
        };
        for len in [least, most] {
            let e = with_k(len);
            let mut k_out = [0; K_RECORD];
            let answer = verdict(e, &mut room, true, true, &mut k_out);
            assert_eq!((answer.number, answer.count), (0, 4 + len));
            assert_eq!(k_out, e.k);
        }
        for len in [least.wrapping_sub(1), most + 1, u32::MAX as usize, (u32::MAX - 3) as usize] {
            no_step_is_due(with_k(len));
            no_step_is_due(Exchange { role: SERVER, ..with_k(len) });
        }
        let e = Exchange { k: [0xff; K_RECORD], ..stages[0] };
        let answer = own_c(e, &mut room, &c_value(number), &mut [0; INIT_OUT]);
        assert_eq!((answer.number, answer.exchange.k), (0, e.k));
    }
}

/// Numbers without order, the same in every run.
struct Shuffle(u64);

impl Shuffle {
    fn below(&mut self, limit: usize) -> usize {
        self.0 ^= self.0 << 13;
        self.0 ^= self.0 >> 7;
        self.0 ^= self.0 << 17;
        (self.0 % limit as u64) as usize
    }
}

#[test]
fn no_record_and_no_payload_makes_a_step_panic() {
    let mut any = Shuffle(0x9e37_79b9_7f4a_7c15);
    let stages =
        [Stage::Started, Stage::OwnC, Stage::Init, Stage::Reply, Stage::Secret, Stage::Complete, Stage::Failed(3)];
    let mut seen = [0; 24];
    for _ in 0..20_000 {
        let number = any.below(11) as u8;
        let row = method(number).copied().unwrap_or_default();
        let odd = |any: &mut Shuffle, good: usize| match any.below(24) {
            0 => usize::MAX,
            1 => 0,
            2 => good + 1,
            _ => good,
        };
        // Mostly the stage and role at which the step is due.
        let step = any.below(7);
        let client = any.below(2) == 0;
        let (role, stage) = match step {
            _ if any.below(8) == 0 => (any.below(4) as u8, stages[any.below(7)]),
            0 => (CLIENT, Stage::Started),
            1 => (SERVER, Stage::Started),
            2 => (CLIENT, Stage::OwnC),
            3 if client => (CLIENT, Stage::Reply),
            3 => (SERVER, Stage::Init),
            4 => (SERVER, Stage::Secret),
            5 => (CLIENT, Stage::Secret),
            _ => (1 + u8::from(client), Stage::Complete),
        };
        let has_c = stage != Stage::Started;
        let has_s = has_c && !matches!(stage, Stage::OwnC | Stage::Init);
        let lens = [
            odd(&mut any, 253),
            odd(&mut any, 253),
            odd(&mut any, 4096),
            odd(&mut any, 4096),
            if has_s { odd(&mut any, 2048) } else { 0 },
            if has_c { odd(&mut any, row.c_len) } else { 0 },
            if has_s { odd(&mut any, row.s_len) } else { 0 },
        ];
        let mut k = [0; K_RECORD];
        k[3] = if row.hybrid { odd(&mut any, row.digest_len) } else { any.below(72) } as u8;
        k[any.below(4)] |= (any.below(20) / 19) as u8;
        let h = std::array::from_fn(|_| any.below(256) as u8);
        let id = std::array::from_fn(|_| any.below(256) as u8);
        let completed = match any.below(24) {
            0 => 0,
            1 => COMPLETED_MOST,
            2 => COMPLETED_MOST + 1,
            3 => u64::MAX,
            _ => 1 + any.below(9) as u64,
        };
        let id_len = if completed > 0 { odd(&mut any, [32, 48, 64][number as usize % 3]) } else { any.below(20) / 19 };
        let session = Session { id, id_len, completed };
        let e = Exchange { role, method: number, stage, lens, k, h, session };

        let mut room = vec![0x42; odd(&mut any, ROOM).min(ROOM + 1).saturating_sub(any.below(9) / 8)];
        let before = room.clone();
        let (out_len, k_len) = (odd(&mut any, REPLY_OUT).min(9000), odd(&mut any, K_RECORD).min(99));
        let (mut out, mut k_out) = (vec![1; out_len], vec![1; k_len]);
        let c = vec![4; odd(&mut any, row.c_len).min(2000)];
        let s = vec![4; odd(&mut any, row.s_len).min(2000)];
        let mut message = if step == 1 && any.below(9) > 0 { init(&c) } else { reply(b"key", &s, b"signature") };
        message.truncate(odd(&mut any, message.len()));
        let x = vec![any.below(9) as u8; odd(&mut any, row.x_len).min(99)];
        let outcome = if any.below(9) == 0 { Classical::Failed } else { Classical::Given(odd(&mut any, row.x_len)) };
        let usual = if row.hybrid { Kem::Done } else { Kem::Absent };
        let kem = if any.below(4) > 0 { usual } else { [Kem::Done, Kem::Absent, Kem::Failed][any.below(3)] };
        let k_pq = vec![5; if (kem == Kem::Done) == (any.below(9) > 0) { K_PQ } else { 0 }];

        let answer = match step {
            0 => own_c(e, &mut room, &c, &mut out),
            1 => {
                let part = init_c(&e, &room, &message);
                let answer = read_init(e, &mut room, &message);
                assert_eq!(part != NOTHING, answer.number == 0);
                answer
            }
            2 => {
                let parts = reply_parts(&e, &room, &message);
                let answer = read_reply(e, &mut room, &message);
                assert_eq!(parts != [NOTHING; 3], answer.number == 0);
                answer
            }
            3 => take_secret(e, &mut room, outcome, &x, kem, &k_pq, b"key", &s),
            4 => sign(e, &room, b"signature", &mut out, &mut k_out),
            5 => verdict(e, &mut room, any.below(3) > 0, any.below(3) > 0, &mut k_out),
            _ => again(e, any.below(11) as u8, I_C, &vec![20; odd(&mut any, 4096).min(4097)], &mut room),
        };
        seen[usize::from(answer.number)] += 1;
        assert_eq!(answer.position != 0, matches!(answer.number, 12 | 13));
        if answer.number != 0 {
            assert_eq!((answer.count, answer.second, answer.h), (0, 0, [0; H]));
            assert!(out.iter().chain(&k_out).all(|&byte| byte == 1));
        }
        match answer.number {
            0 => assert_ne!(answer.exchange.stage, e.stage),
            1 | 3 | 4 | 5 => assert!(answer.exchange == e && room == before),
            2 | 23 => assert!(answer.exchange == e && room == before && step == 6),
            10..=18 => {
                let stage = Stage::Failed(answer.number);
                let failed = Exchange { role: e.role, method: number, stage, session, ..Exchange::default() };
                assert_eq!(answer.exchange, failed);
                assert!(room.iter().all(|&byte| byte == 0));
            }
            other => panic!("a step answered {other}"),
        }
    }
    assert!([0, 1, 2, 3, 4, 5, 10, 11, 14, 16, 17, 18, 23].iter().all(|&number| seen[number] > 0), "{seen:?}");
}
