//! What the wrapper adds to the boundary: slices for parts, refusals for numbers, places for positions, an iterator for a list, an
//! exchange that comes back or ends, and a K, keys and a hash that are wiped.
use castulfrisa::exchange::{CSent, Complete, SecretDone, Started};
use castulfrisa::*;
use std::fmt::Write;
use std::mem::ManuallyDrop;

fn kexinit(kex: &[u8], host_keys: &[u8], follows: bool) -> Vec<u8> {
    let mut out = vec![0; 4096];
    let n = write_kexinit(&mut out, &[3; 16], &[kex, host_keys, b"", b"", b"", b"", b"", b"", b"", b""], follows, 9).unwrap();
    out.truncate(n);
    out
}

#[test]
fn the_archive_is_of_this_version() {
    assert!(same_version());
    assert_eq!(raw::version(), VERSION);
}

#[test]
fn refusals_are_their_numbers() {
    for number in (1..=300).chain([1 << 32, u64::MAX]) {
        let refusal = Refusal::of(number);
        assert_eq!(refusal.number(), number);
        assert_eq!(matches!(refusal, Refusal::Other(_)), !matches!(number, 1..=5 | 10..=23));
        assert_eq!(refusal.ends_exchange(), matches!(number, 10..=18));
        assert!(refusal.to_string().ends_with(&format!("({})", number)));
    }
}

#[test]
fn strings_and_mpints() {
    let mut out = [0; 8];
    assert_eq!(write_string(&mut out, b"ab"), Ok(6));
    assert_eq!(read_string(&out), Ok((&b"ab"[..], &[0, 0][..])));
    assert_eq!(write_string(&mut out[..5], b"ab"), Err(Refusal::ShortOutput));
    assert_eq!(read_string(&[0, 0, 0]), Err(Refusal::PastEnd));
    assert_eq!(write_mpint(&mut out, &[0xff, 0xff, 0x7f]), Ok(6));
    assert_eq!(read_mpint(&out[..6]), Ok((Mpint { sign: -1, body: &[0xff, 0x7f] }, &[][..])));
    assert_eq!(read_mpint(&[0, 0, 0, 1, 0]), Err(Refusal::NotShortest));
}

#[test]
fn methods_have_numbers_names_and_sizes() {
    for (i, method) in Method::ALL.into_iter().enumerate() {
        assert_eq!(method.number(), i as u64 + 1);
        assert_eq!((Method::of(method.number()), Method::of_name(&method.name())), (Some(method), Some(method)));
        assert!(method.sizes().c_len > 0 && method.sizes().hybrid == (method >= Method::Mlkem768Nistp256Sha256));
    }
    assert_eq!(&Method::Curve448Sha512.name()[..], b"curve448-sha512");
    assert_eq!(Method::Curve448Sha512.name().to_string(), "curve448-sha512");
    assert_eq!(format!("{:?}", Method::Curve448Sha512.name()), "\"curve448-sha512\"");
    assert_eq!((Method::of(0), Method::of(10), Method::of(257), Method::of_name(b"none")), (None, None, None, None));
    let sizes = Method::Mlkem768X25519Sha256.sizes();
    let lens = (sizes.c_len, sizes.c_classical, sizes.s_len, sizes.s_classical, sizes.x_len, sizes.digest_len);
    assert_eq!((lens, sizes.hybrid, sizes.zero_check), ((1216, 1184, 1120, 1088, 32, 32), true, true));
}

#[test]
fn a_list_ends_or_stops_at_a_bad_name() {
    let payload = kexinit(b"a,bc", b"d", true);
    let opened = open_list(&payload, List::Kex).unwrap();
    assert_eq!((opened.cookie, opened.follows, opened.reserved), (&[3; 16][..], true, 9));
    let names: Vec<_> = opened.names.take(9).collect();
    assert_eq!(names, [Ok(&b"a"[..]), Ok(&b"bc"[..])]);
    assert_eq!(open_list(&payload, List::LanguageS2c).unwrap().names.next(), None);

    let mut bad = payload.clone();
    bad[22] = b' '; // the comma between the two
    let mut names = open_list(&bad, List::Kex).unwrap().names;
    assert_eq!(names.next(), Some(Err(Refusal::BadName)));
    assert_eq!((names.next(), names.next()), (None, None));
    assert_eq!(open_list(&payload[1..], List::Kex).unwrap_err(), Refusal::Message);
}

#[test]
fn a_bad_list_is_named() {
    let good: [&[u8]; 10] = [b"a"; 10];
    for (i, list) in List::ALL.into_iter().enumerate() {
        assert_eq!(List::of(list.number()), Some(list));
        let mut out = [7; 100];
        let mut lists = good;
        lists[i] = b"a,";
        let not = write_kexinit(&mut out, &[3; 16], &lists, false, 0).unwrap_err();
        assert_eq!(not, NotWritten { refusal: Refusal::BadInput, list: Some(list) });
        assert!(not.to_string().starts_with(&format!("list {} ({:?}): ", i + 1, list)));
        assert_eq!(out, [7; 100]);
        // the one with which they become too long; a bad one ahead of it is named first
        let long = vec![b'x'; 4034];
        lists[i] = &long;
        let long = write_kexinit(&mut out, &[3; 16], &lists, false, 0).unwrap_err();
        assert_eq!((long.refusal, long.list), (Refusal::BadInput, Some(list)));
        if i > 0 {
            lists[0] = b"\n";
            assert_eq!(write_kexinit(&mut out, &[3; 16], &lists, false, 0).unwrap_err().list, Some(List::Kex));
        }
    }
    assert_eq!((List::of(0), List::of(11)), (None, None));
    let short = write_kexinit(&mut [0; 71], &[3; 16], &good, true, u32::MAX).unwrap_err();
    assert_eq!(short, NotWritten { refusal: Refusal::ShortOutput, list: None });
    assert_eq!(short.to_string(), Refusal::ShortOutput.to_string());
    // 63 names of 63 bytes and a comma: the longest KEXINIT, and one byte more
    let longest = vec![[b'n'; 63]; 63].join(&b',');
    let (all, most) = (vec![longest, vec![b'm'; 3]], 4096 - 62);
    let mut lists = [&b""[..]; 10];
    (lists[0], lists[9]) = (&all[0], &all[1]);
    assert_eq!(all[0].len() + all[1].len(), most);
    assert_eq!(write_kexinit(&mut [0; 4096], &[3; 16], &lists, false, 0), Ok(4096));
    lists[5] = b"o";
    let more = write_kexinit(&mut [0; 5000], &[3; 16], &lists, false, 0);
    assert_eq!(more, Err(NotWritten { refusal: Refusal::BadInput, list: Some(List::LanguageS2c) }));
}

#[test]
fn the_choice() {
    let (client, server) = (kexinit(b"none,curve448-sha512", b"x,y", true), kexinit(b"curve448-sha512", b"y", false));
    let choice = choose(&client, &server).unwrap();
    assert_eq!(choice, Choice { method: Method::Curve448Sha512, host_key: b"y", ignore_client: true, ignore_server: false });
    assert_eq!(choose(&client, &kexinit(b"none", b"y", false)), Err(Refusal::NoCommonMethod));
}

/// What a test lends: an exchange and a room that others have used.
struct Buffers {
    exchange: [u8; EXCHANGE],
    room: Vec<u8>,
}

impl Buffers {
    fn new() -> Buffers {
        Buffers { exchange: [7; EXCHANGE], room: vec![7; ROOM + 9] }
    }

    fn client(&mut self) -> Client<'_, Started> {
        Client::start(Method::Curve25519Sha256, GREETING, &mut self.exchange, &mut self.room).unwrap()
    }

    fn server(&mut self) -> Server<'_, Started> {
        Server::start(Method::Curve25519Sha256, GREETING, &mut self.exchange, &mut self.room).unwrap()
    }

    fn wiped(&self) -> bool {
        self.exchange.iter().chain(&self.room).all(|byte| *byte == 0)
    }
}

const GREETING: Greeting = Greeting { vc: b"c", vs: b"s", ic: &[20], is: &[20, 1] };
const X: [u8; 32] = [0x5a; 32];

fn init() -> Vec<u8> {
    [&[30, 0, 0, 0, 32][..], &[1; 32]].concat()
}

fn reply() -> Vec<u8> {
    [&[31, 0, 0, 0, 1, b'k', 0, 0, 0, 32][..], &[2; 32], &[0, 0, 0, 1, b'g']].concat()
}

fn client_at_secret(b: &mut Buffers) -> Client<'_, SecretDone> {
    let client = b.client().own_c(&[1; 32], &mut [0; INIT]).unwrap().0;
    let client = client.read_reply(&reply()).unwrap().0;
    client.take_secret(Classical::Given(&X), Kem::Absent).unwrap()
}

fn server_at_secret(b: &mut Buffers) -> Server<'_, SecretDone> {
    let server = b.server().read_init(&init()).unwrap().0;
    server.take_secret(Classical::Given(&X), Kem::Absent, Own { host_key: b"k", s: &[2; 32] }).unwrap()
}

fn back<T, E>(step: Result<T, Stopped<E>>, want: Refusal) -> E {
    match step {
        Err(Stopped::Refused { refusal, exchange }) if refusal == want => exchange,
        Err(stopped) => panic!("{:?} and not {:?}", stopped, want),
        Ok(_) => panic!("accepted and not {:?}", want),
    }
}

fn ended<T, E>(step: Result<T, Stopped<E>>, want: Refusal) {
    match step {
        Err(Stopped::Failed(refusal)) if refusal == want => {}
        Err(stopped) => panic!("{:?} and not {:?}", stopped, want),
        Ok(_) => panic!("accepted and not {:?}", want),
    }
}

#[test]
fn what_changes_nothing_brings_the_exchange_back() {
    let mut b = Buffers::new();
    let short = Client::start(Method::Curve25519Sha256, GREETING, &mut b.exchange, &mut b.room[..ROOM - 1]);
    assert_eq!(short.err(), Some(Refusal::ShortRoom));
    let bad = Server::start(Method::Curve25519Sha256, Greeting { vc: b"\n", ..GREETING }, &mut b.exchange, &mut b.room);
    assert_eq!(bad.err(), Some(Refusal::BadInput));
    assert!(b.room.iter().all(|byte| *byte == 7), "a refused start leaves the room");

    let mut out = [0; INIT];
    let client = back(b.client().own_c(&[1; 31], &mut out), Refusal::BadInput);
    let client = back(client.own_c(&[1; 32], &mut out[1..]), Refusal::ShortOutput);
    let (client, sent) = client.own_c(&[1; 32], &mut out).unwrap();
    assert_eq!(sent, init());
    let payload = reply();
    let (client, parts) = client.read_reply(&payload).unwrap();
    assert_eq!(parts, Reply { host_key: b"k", s: &[2; 32], signature: b"g" });
    let client = back(client.take_secret(Classical::Given(&X[1..]), Kem::Absent), Refusal::BadInput);
    let client = back(client.take_secret(Classical::Given(&X), Kem::Done(&[1; 32])), Refusal::BadInput);
    let client = client.take_secret(Classical::Given(&X), Kem::Absent).unwrap();
    let k = [&[0, 0, 0, 32][..], &X].concat();
    let h = sha(Kind::Sha256, client.hash_input());
    assert_eq!(client.h(), h);
    assert!(client.hash_input().starts_with(b"\0\0\0\x01c\0\0\0\x01s") && client.hash_input().ends_with(&k));
    assert_eq!(client.role(), Role::Client);
    let mut written = K::new();
    assert_eq!(written.as_bytes(), &[]);
    let client: Client<Complete> = client.verdict(true, true, &mut written).unwrap();
    assert_eq!(written.as_bytes(), k);
    assert!(client.hash_input().ends_with(&k));
    assert_eq!(client.h(), h);
    drop(client);
    assert!(b.wiped());

    let mut out = [0; REPLY];
    let server = server_at_secret(&mut b);
    assert_eq!(server.role(), Role::Server);
    let mut written = K::new();
    let server = back(server.sign(&[], &mut out, &mut written), Refusal::BadInput);
    let server = back(server.sign(b"g", &mut out[1..], &mut written), Refusal::ShortOutput);
    assert_eq!(written.as_bytes(), &[]);
    let (server, sent) = server.sign(b"g", &mut out, &mut written).unwrap();
    assert_eq!((sent, written.as_bytes()), (&reply()[..], &k[..]));
    assert!(server.hash_input().ends_with(&k));
    assert_eq!(server.h(), h);
    drop(server);
    assert!(b.wiped());
}

#[test]
fn a_fault_ends_an_exchange_and_empties_what_it_was_lent() {
    let mut b = Buffers::new();
    ended(b.server().read_init(&[30, 0, 0, 0, 31]), Refusal::PastEnd);
    assert!(b.wiped());
    let client = b.client().own_c(&[1; 32], &mut [0; INIT]).unwrap().0;
    ended(client.read_reply(&[30]), Refusal::Message);
    assert!(b.wiped());
    let server = b.server().read_init(&init()).unwrap().0;
    ended(server.take_secret(Classical::Failed, Kem::Absent, Own { host_key: b"k", s: &[2; 32] }), Refusal::Classical);
    assert!(b.wiped());
    let mut k = K::new();
    for (signature, host_key) in [(false, true), (true, false)] {
        ended(client_at_secret(&mut b).verdict(signature, host_key, &mut k), Refusal::Verdict);
        assert!(b.wiped());
    }
    assert_eq!(k.as_bytes(), &[]);
}

#[test]
fn what_was_lent_is_wiped_at_every_stage() {
    let mut b = Buffers::new();
    drop(b.client());
    assert!(b.wiped());
    drop(b.client().own_c(&[1; 32], &mut [0; INIT]));
    assert!(b.wiped());
    drop(b.server().read_init(&init()));
    assert!(b.wiped());
    drop(client_at_secret(&mut b));
    assert!(b.wiped());
    // also where it is given up for its refusal
    let refusal: Refusal = server_at_secret(&mut b).sign(&[], &mut [0; REPLY], &mut K::new()).unwrap_err().into();
    assert_eq!(refusal, Refusal::BadInput);
    assert!(b.wiped());
}

/// A client that waits for REPLY.
fn client_at_reply(b: &mut Buffers) -> Client<'_, CSent> {
    b.client().own_c(&[1; 32], &mut [0; INIT]).unwrap().0
}

/// What the reader of a message makes of a payload where it is due; none where it takes it.
fn cause(message: Message, payload: &[u8]) -> Option<Cause> {
    let mut b = Buffers::new();
    match message {
        Message::Kexinit => open_list(payload, List::Kex).err(),
        Message::Init => b.server().read_init(payload).err().map(Cause::from),
        Message::Reply => client_at_reply(&mut b).read_reply(payload).err().map(Cause::from),
    }
}

#[test]
fn a_message_that_breaks_is_told_in_words() {
    let kexinit = kexinit(b"curve25519-sha256", b"ssh-ed25519", false);
    let (init, reply) = (init(), reply());
    let more = |payload: &[u8], with: &[u8]| [payload, with].concat();
    let told = |message, payload: &[u8]| cause(message, payload).map(|cause| cause.to_string());
    let of_init = |payload: &[u8]| told(Message::Init, payload).unwrap();
    assert_eq!(of_init(&init[..1]), "INIT cut at byte 1, in C's length (12)");
    assert_eq!(of_init(&init[..4]), "INIT cut at byte 1, in C's length (12)");
    assert_eq!(of_init(&init[..5]), "INIT cut at byte 1, in C (12)");
    assert_eq!(of_init(&init[..36]), "INIT cut at byte 1, in C (12)");
    assert_eq!(of_init(&more(&init, &[0])), "INIT has bytes left over from byte 37 on (13)");
    let of_reply = |payload: &[u8]| told(Message::Reply, payload).unwrap();
    assert_eq!(of_reply(&reply[..3]), "REPLY cut at byte 1, in K_S's length (12)");
    assert_eq!(of_reply(&reply[..5]), "REPLY cut at byte 1, in K_S (12)");
    assert_eq!(of_reply(&reply[..6]), "REPLY cut at byte 6, in S's length (12)");
    assert_eq!(of_reply(&reply[..41]), "REPLY cut at byte 6, in S (12)");
    assert_eq!(of_reply(&reply[..42]), "REPLY cut at byte 42, in the signature's length (12)");
    assert_eq!(of_reply(&reply[..45]), "REPLY cut at byte 42, in the signature's length (12)");
    assert_eq!(of_reply(&reply[..46]), "REPLY cut at byte 42, in the signature (12)");
    assert_eq!(of_reply(&more(&reply, b"more")), "REPLY has bytes left over from byte 47 on (13)");
    let of_kexinit = |payload: &[u8]| told(Message::Kexinit, payload).unwrap();
    assert_eq!(of_kexinit(&kexinit[..1]), "KEXINIT cut at byte 1, in the cookie (12)");
    assert_eq!(of_kexinit(&kexinit[..16]), "KEXINIT cut at byte 1, in the cookie (12)");
    assert_eq!(of_kexinit(&kexinit[..17]), "KEXINIT cut at byte 17, in kex_algorithms's length (12)");
    assert_eq!(of_kexinit(&kexinit[..37]), "KEXINIT cut at byte 17, in kex_algorithms (12)");
    assert_eq!(of_kexinit(&kexinit[..38]), "KEXINIT cut at byte 38, in server_host_key_algorithms's length (12)");
    assert_eq!(of_kexinit(&kexinit[..85]), "KEXINIT cut at byte 85, in first_kex_packet_follows (12)");
    assert_eq!(of_kexinit(&kexinit[..86]), "KEXINIT cut at byte 86, in reserved (12)");
    assert_eq!(of_kexinit(&kexinit[..89]), "KEXINIT cut at byte 86, in reserved (12)");
    assert_eq!(of_kexinit(&more(&kexinit, &[0])), "KEXINIT has bytes left over from byte 90 on (13)");
    assert_eq!((told(Message::Init, &init), told(Message::Reply, &reply), told(Message::Kexinit, &kexinit)), (None, None, None));

    // a step's own error says it as well, and a place by itself does without the number
    let mut b = Buffers::new();
    let stopped = b.server().read_init(&init[..9]).map(|_| ()).unwrap_err();
    assert_eq!(stopped.to_string(), "INIT cut at byte 1, in C (12)");
    let place = Place { message: Message::Init, position: 1, field: Some(Field::C), in_length: false };
    assert_eq!((stopped.refusal(), stopped.place()), (Refusal::PastEnd, Some(place)));
    assert_eq!(place.to_string(), "INIT cut at byte 1, in C");
    assert_eq!((Refusal::from(Cause::from(stopped)), b.wiped()), (Refusal::PastEnd, true));
}

/// Where the fields of a message begin, whether they are strings, and behind them where the last one ends.
fn borders(message: Message, payload: &[u8]) -> Vec<(usize, bool)> {
    let mut at = 1;
    let mut all = vec![];
    for field in message.fields() {
        let fixed = match field {
            Field::Cookie => Some(16),
            Field::Follows => Some(1),
            Field::Reserved => Some(4),
            _ => None,
        };
        all.push((at, fixed.is_none()));
        at += fixed.unwrap_or_else(|| 4 + payload[at + 3] as usize);
    }
    assert_eq!(at, payload.len());
    all.push((at, false));
    all
}

#[test]
fn every_cut_is_told_with_its_field() {
    let mut out = [0; 4096];
    let lists: [&[u8]; 10] = [b"a,bc", b"d", b"", b"e", b"", b"", b"f", b"", b"gh", b"i"];
    let n = write_kexinit(&mut out, &[3; 16], &lists, true, 9).unwrap();
    for (message, whole) in [(Message::Init, init()), (Message::Reply, reply()), (Message::Kexinit, out[..n].to_vec())] {
        let borders = borders(message, &whole);
        for len in 1..whole.len() {
            let i = borders.iter().rposition(|(at, _)| *at <= len).unwrap();
            let ((position, string), field) = (borders[i], Some(message.fields()[i]));
            let place = Place { message, position, field, in_length: string && len < position + 4 };
            assert_eq!(cause(message, &whole[..len]), Some(Cause { refusal: Refusal::PastEnd, place: Some(place) }), "{} bytes", len);
            assert_eq!(Place::of(&whole[..len], position as u64), Some(place));
        }
        for more in [1, 4, 9] {
            let place = Place { message, position: whole.len(), field: None, in_length: false };
            let cause = cause(message, &[&whole[..], &vec![0; more]].concat());
            assert_eq!(cause, Some(Cause { refusal: Refusal::LeftOver, place: Some(place) }));
        }
        // lengths that pass the end by one, and by as much as can be
        for (i, (at, _)) in borders.iter().enumerate().filter(|(_, border)| border.1) {
            for len in [(whole.len() - at - 3) as u32, 0xffff_fffd, u32::MAX] {
                let mut payload = whole.clone();
                payload[*at..at + 4].copy_from_slice(&len.to_be_bytes());
                let place = Place { message, position: *at, field: Some(message.fields()[i]), in_length: false };
                assert_eq!(cause(message, &payload), Some(Cause { refusal: Refusal::PastEnd, place: Some(place) }));
            }
        }
    }
}

#[test]
fn no_other_refusal_has_a_place() {
    let none = |refusal| Some(Cause { refusal, place: None });
    for message in [Message::Init, Message::Reply, Message::Kexinit] {
        assert_eq!(cause(message, &[]), none(Refusal::PayloadSize));
        let mut long = vec![0; PAYLOAD_MOST + 1];
        long[0] = message as u8;
        assert_eq!(cause(message, &long), none(Refusal::PayloadSize));
        assert_eq!(cause(message, &[21, 0, 0]), none(Refusal::Message));
    }
    let mut short = init();
    (short[4], _) = (31, short.pop());
    assert_eq!(cause(Message::Init, &short), none(Refusal::FieldLength));
    let bare = [31, 0, 0, 0, 0, 0, 0, 0, 0, 0, 0, 0, 0];
    assert_eq!(cause(Message::Reply, &bare), none(Refusal::FieldLength));
    let mut b = Buffers::new();
    let server = Server::start(Method::Nistp256Sha256, GREETING, &mut b.exchange, &mut b.room).unwrap();
    let lead = server.read_init(&[&[30, 0, 0, 0, 65][..], &[3; 65]].concat()).err().map(Cause::from);
    assert_eq!(lead, none(Refusal::LeadByte));
    assert_eq!(lead.unwrap().to_string(), Refusal::LeadByte.to_string());
    // steps that read nothing; the second brings the exchange back
    let no = client_at_secret(&mut b).verdict(false, true, &mut K::new()).err().map(Cause::from);
    assert_eq!(no, none(Refusal::Verdict));
    let stopped = b.client().own_c(&[], &mut [0; INIT]).map(|_| ()).unwrap_err();
    assert_eq!((stopped.refusal(), stopped.place()), (Refusal::BadInput, None));
    assert_eq!(stopped.to_string(), Refusal::BadInput.to_string());
    assert_eq!(Cause::from(stopped), Cause::from(Refusal::BadInput));
    // a choice has none: who wants to know opens the payload
    assert_eq!(choose(&[20], &[20]), Err(Refusal::PastEnd));
}

#[test]
fn a_position_is_one_of_a_field_or_of_what_is_left() {
    let kexinit = kexinit(b"a", b"b", false);
    let reply = reply();
    for (payload, message) in [(&kexinit, Message::Kexinit), (&reply, Message::Reply), (&init(), Message::Init)] {
        let borders = borders(message, payload);
        for position in (0..payload.len() as u64 + 9).chain([1 << 32 | 1, u64::MAX]) {
            let i = borders.iter().position(|(at, _)| *at as u64 == position);
            let field = i.map(|i| message.fields().get(i).copied());
            assert_eq!(Place::of(payload, position).map(|place| place.field), field, "{} of {}", position, message);
        }
    }
    assert_eq!((Place::of(&[], 0), Place::of(&[], 1), Place::of(&[21, 0], 1), Place::of(&[30], 0)), (None, None, None, None));
}

/// The digest of a message fed in two parts.
fn sha(kind: Kind, message: &[u8]) -> Vec<u8> {
    let (one, two) = message.split_at(message.len() / 3);
    let mut hash = Hash::start(kind);
    hash.feed(one).unwrap();
    hash.feed(two).unwrap();
    let mut digest = [7; H_SIZE];
    let len = hash.finish(&mut digest).unwrap().len();
    assert_eq!((len as u64, &digest[len..]), (kind.number(), &vec![0; H_SIZE - len][..]));
    digest[..len].to_vec()
}

#[test]
fn a_hybrids_k_is_the_hash_of_k_pq_and_x() {
    let kinds = [
        (Method::Mlkem768Nistp256Sha256, Kind::Sha256),
        (Method::Mlkem1024Nistp384Sha384, Kind::Sha384),
        (Method::Mlkem768X25519Sha256, Kind::Sha256),
    ];
    let (mut b, k_pq) = (Buffers::new(), [0x71; K_PQ_SIZE]);
    for (method, kind) in kinds {
        let sizes = method.sizes();
        assert_eq!(Kind::of(sizes.digest_len as u64), Some(kind));
        let (c, s, x) = (vec![4; sizes.c_len], vec![4; sizes.s_len], vec![0x5b; sizes.x_len]);
        let own = Own { host_key: b"k", s: &s };
        let init = [&[30][..], &(c.len() as u32).to_be_bytes(), &c].concat();
        let server = Server::start(method, GREETING, &mut b.exchange, &mut b.room).unwrap().read_init(&init).unwrap().0;
        let server = back(server.take_secret(Classical::Given(&x), Kem::Done(&k_pq[1..]), own), Refusal::BadInput);
        let server = back(server.take_secret(Classical::Failed, Kem::Done(&[]), own), Refusal::BadInput);
        let server = back(server.take_secret(Classical::Given(&x), Kem::Absent, own), Refusal::BadInput);
        let server = server.take_secret(Classical::Given(&x), Kem::Done(&k_pq), own).unwrap();
        let digest = sha(kind, &[&k_pq[..], &x].concat());
        assert!(server.hash_input().ends_with(&[&[0, 0, 0, digest.len() as u8][..], &digest].concat()));
        assert_eq!(server.h(), sha(kind, server.hash_input()));
        drop(server);
        let server = Server::start(method, GREETING, &mut b.exchange, &mut b.room).unwrap().read_init(&init).unwrap().0;
        ended(server.take_secret(Classical::Given(&x), Kem::Failed, own), Refusal::Kem);
    }
}

/// RFC 4253, section 7.2, by hashes of whole messages.
fn key(kind: Kind, k: &[u8], h: &[u8], letter: u8, id: &[u8], length: usize) -> Vec<u8> {
    let mut all = sha(kind, &[k, h, &[letter], id].concat());
    while all.len() < length {
        all = [&all[..], &sha(kind, &[k, h, &all].concat())].concat();
    }
    all.truncate(length);
    all
}

#[test]
fn a_complete_exchange_gives_the_six_keys() {
    let mut b = Buffers::new();
    for method in Method::ALL {
        let sizes = method.sizes();
        let kind = Kind::of(sizes.digest_len as u64).unwrap();
        let (c, s, x) = (vec![4; sizes.c_len], vec![4; sizes.s_len], vec![0x9b; sizes.x_len]);
        let kem = if sizes.hybrid { Kem::Done(&[0x71; K_PQ_SIZE]) } else { Kem::Absent };
        let init = [&[30][..], &(c.len() as u32).to_be_bytes(), &c].concat();
        let server = Server::start(method, GREETING, &mut b.exchange, &mut b.room).unwrap().read_init(&init).unwrap().0;
        let server = server.take_secret(Classical::Given(&x), kem, Own { host_key: b"k", s: &s }).unwrap();
        let mut k = K::new();
        let server = server.sign(b"g", &mut [0; REPLY], &mut k).unwrap().0;
        let mut keys: [Key; 6] = Default::default();
        for (letter, one) in Letter::ALL.into_iter().zip(&mut keys) {
            assert_eq!(one.as_bytes(), &[]);
            for length in [KEY_MOST, 1, 16, 20, 32, 64, 100] {
                server.derive(letter, length, one).unwrap();
                let want = key(kind, k.as_bytes(), server.h(), letter.number() as u8, server.h(), length);
                assert_eq!((one.as_bytes(), Letter::of(letter.number())), (&want[..], Some(letter)));
            }
            // refused, a key stays
            for length in [0, KEY_MOST + 1, usize::MAX] {
                assert_eq!(server.derive(letter, length, one), Err(Refusal::BadInput));
                assert_eq!(one.as_bytes(), key(kind, k.as_bytes(), server.h(), letter.number() as u8, server.h(), 100));
            }
        }
        for (i, one) in keys.iter().enumerate() {
            assert!(keys[..i].iter().all(|other| other.as_bytes() != one.as_bytes()));
        }
        drop(server);
        assert!(b.wiped());
    }
    assert_eq!((Letter::of(64), Letter::of(71), Letter::of(256 + 65), Letter::of(97)), (None, None, None, None));

    // both sides have the same, and a client's comes of its verdict
    let (mut of_client, mut of_server) = (Key::new(), Key::new());
    let client = client_at_secret(&mut b).verdict(true, true, &mut K::new()).unwrap();
    client.derive(Letter::MacKeyS2c, 64, &mut of_client).unwrap();
    drop(client);
    let server = server_at_secret(&mut b).sign(b"g", &mut [0; REPLY], &mut K::new()).unwrap().0;
    server.derive(Letter::MacKeyS2c, 64, &mut of_server).unwrap();
    assert_eq!(of_client.as_bytes(), of_server.as_bytes());
}

/// What both sides of an exchange are fed in a method.
struct Fed {
    c: Vec<u8>,
    s: Vec<u8>,
    x: Vec<u8>,
    hybrid: bool,
}

impl Fed {
    fn new(method: Method) -> Fed {
        let sizes = method.sizes();
        Fed { c: vec![4; sizes.c_len], s: vec![4; sizes.s_len], x: vec![0x9b; sizes.x_len], hybrid: sizes.hybrid }
    }

    fn kem(&self) -> Kem<'_> {
        if self.hybrid { Kem::Done(&[0x71; K_PQ_SIZE]) } else { Kem::Absent }
    }

    fn init(&self) -> Vec<u8> {
        [&[30][..], &(self.c.len() as u32).to_be_bytes(), &self.c].concat()
    }

    fn reply(&self) -> Vec<u8> {
        [&[31, 0, 0, 0, 1, b'k'][..], &(self.s.len() as u32).to_be_bytes(), &self.s, &[0, 0, 0, 1, b'g']].concat()
    }

    /// A client's steps from a beginning on; the session is told alike at each, but for the last.
    fn client<'r>(&self, client: Client<'r, Started>, k: &mut K) -> Client<'r, Complete> {
        let session = client.session();
        let client = client.own_c(&self.c, &mut [0; INIT]).unwrap().0;
        assert_eq!(client.session(), session);
        let client = client.read_reply(&self.reply()).unwrap().0;
        assert_eq!(client.session(), session);
        let client = client.take_secret(Classical::Given(&self.x), self.kem()).unwrap();
        assert_eq!(client.session(), session);
        client.verdict(true, true, k).unwrap()
    }

    fn server<'r>(&self, server: Server<'r, Started>, k: &mut K) -> Server<'r, Complete> {
        let session = server.session();
        let server = server.read_init(&self.init()).unwrap().0;
        assert_eq!(server.session(), session);
        let own = Own { host_key: b"k", s: &self.s };
        let server = server.take_secret(Classical::Given(&self.x), self.kem(), own).unwrap();
        assert_eq!(server.session(), session);
        server.sign(b"g", &mut [0; REPLY], k).unwrap().0
    }
}

#[test]
fn a_complete_exchange_begins_again() {
    // hashes that change from each to the next
    let methods = [Method::Curve25519Sha256, Method::Curve448Sha512, Method::Mlkem1024Nistp384Sha384, Method::Curve25519Sha256];
    let (mut of_client, mut of_server) = (Buffers::new(), Buffers::new());
    let mut client = Client::start(methods[0], GREETING, &mut of_client.exchange, &mut of_client.room).unwrap();
    let mut server = Server::start(methods[0], GREETING, &mut of_server.exchange, &mut of_server.room).unwrap();
    assert_eq!((client.session().id(), client.session().completed()), (&[][..], 0));
    let mut id = Vec::new();
    for (i, method) in methods.into_iter().enumerate() {
        let (fed, kind) = (Fed::new(method), Kind::of(method.sizes().digest_len as u64).unwrap());
        let mut k = K::new();
        let done = fed.client(client, &mut k);
        let other = fed.server(server, &mut K::new());
        if i == 0 {
            id = done.h().to_vec();
        }
        // in front the version lines, which nobody handed in again
        assert!(done.hash_input().starts_with(b"\0\0\0\x01c\0\0\0\x01s\0\0\0"));
        assert_eq!((done.hash_input(), done.h()), (other.hash_input(), &sha(kind, done.hash_input())[..]));
        for (session, role) in [(done.session(), done.role()), (other.session(), other.role())] {
            assert_eq!((session.id(), session.completed()), (&id[..], i as u64 + 1), "{:?}", role);
        }
        let (mut sends, mut receives) = (Key::new(), Key::new());
        done.derive(Letter::MacKeyC2s, 100, &mut sends).unwrap();
        other.derive(Letter::MacKeyC2s, 100, &mut receives).unwrap();
        let want = key(kind, k.as_bytes(), done.h(), b'E', &id, 100);
        assert_eq!((sends.as_bytes(), receives.as_bytes()), (&want[..], &want[..]));

        // what is refused is complete as before
        let (next, ic, is) = (methods[(i + 1) % 4], &[20, i as u8][..], &[20; 300][..]);
        let done = back(done.again(next, &[], is), Refusal::BadInput);
        let done = back(done.again(next, ic, &[21]), Refusal::BadInput);
        done.derive(Letter::MacKeyC2s, 100, &mut receives).unwrap();
        assert_eq!(receives.as_bytes(), want);
        client = done.again(next, ic, is).unwrap();
        server = other.again(next, ic, is).unwrap();
        assert_eq!((client.session().id(), client.session().completed()), (&id[..], i as u64 + 1));
    }
    // the peer's fault ends it for good
    ended(server.read_init(&[30]), Refusal::PastEnd);
    assert!(of_server.wiped());
    drop(client);
    assert!(of_client.wiped());
}

#[test]
fn what_no_type_lets_through_is_refused_by_the_boundary() {
    let mut b = Buffers::new();
    // it stays complete in its bytes
    std::mem::forget(server_at_secret(&mut b).sign(b"g", &mut [0; REPLY], &mut K::new()).unwrap().0);
    let before = b.exchange;
    assert_eq!(raw::again(&mut b.exchange, &mut b.room[..ROOM - 1], 1, &[20], &[20]), 3);
    assert_eq!(raw::again(&mut b.exchange, &mut b.room, 10, &[20], &[20]), 2);
    assert_eq!(raw::again(&mut b.exchange[1..], &mut b.room, 1, &[20], &[20]), 1);
    assert_eq!(b.exchange, before);
    // the last of counts, in its eight bytes
    b.exchange[156..164].copy_from_slice(&4_294_967_295u64.to_be_bytes());
    assert_eq!(raw::again(&mut b.exchange, &mut b.room, 1, &[20], &[20]), 23);
    assert_eq!(Refusal::of(23), Refusal::CountFull);
    let (mut told, mut id) = (raw::Session::default(), [7; H_SIZE]);
    assert_eq!(raw::session_id(&b.exchange, &mut told, &mut id), 0);
    assert_eq!((told, &id[32..]), (raw::Session { id_len: 32, completed: 4_294_967_295 }, &[0; 32][..]));
    assert_eq!(raw::session_id(&b.exchange[1..], &mut told, &mut id), 1);
    assert_eq!((told, id), (raw::Session::default(), [0; H_SIZE]));
    // a cut INIT that is not due, or has a room that is too short, is no fault, and has no position
    let full = |word| raw::Init { c: raw::Part { start: word, len: word }, position: word };
    let mut told = full(7);
    assert_eq!(raw::read_init(&mut b.exchange, &mut b.room, &[30], &mut told), 1);
    assert_eq!(told, full(0));
    std::mem::forget(b.server());
    told = full(7);
    assert_eq!(raw::read_init(&mut b.exchange, &mut b.room[..ROOM - 1], &[30], &mut told), 3);
    assert_eq!(told, full(0));
    assert_eq!(raw::read_init(&mut b.exchange, &mut b.room, &[30], &mut told), 12);
    assert_eq!((told.c, told.position), (raw::Part::default(), 1));
}

#[test]
fn a_hash_is_fed_and_finished() {
    assert_eq!(sha(Kind::Sha256, b"abc")[..4], [0xba, 0x78, 0x16, 0xbf]);
    assert_eq!(sha(Kind::Sha384, b"abc")[..4], [0xcb, 0x00, 0x75, 0x3f]);
    assert_eq!(sha(Kind::Sha512, b"abc")[..4], [0xdd, 0xaf, 0x35, 0xa1]);
    for kind in Kind::ALL {
        assert_eq!(Kind::of(kind.number()), Some(kind));
        let (mut hash, mut digest, mut more) = (Hash::start(kind), [7; H_SIZE], [7; H_SIZE]);
        assert_eq!(hash.kind(), kind);
        hash.feed(&[1; HASH_MOST - 1]).unwrap();
        assert_eq!(hash.feed(&[1; 2]), Err(Refusal::BadInput));
        hash.feed(&[1]).unwrap();
        hash.finish(&mut digest).unwrap();
        assert_eq!((hash.feed(&[1]), hash.feed(&[])), (Err(Refusal::BadInput), Ok(())));
        hash.finish(&mut more).unwrap();
        assert_eq!((digest, &digest[..kind as usize]), (more, &sha(kind, &[1; HASH_MOST])[..]));
    }
    assert_eq!((Kind::of(0), Kind::of(33), Kind::of(1 << 32 | 32)), (None, None, None));
}

#[test]
fn a_hash_is_wiped_when_it_is_dropped() {
    let mut hash = ManuallyDrop::new(Hash::start(Kind::Sha512));
    hash.feed(&X).unwrap();
    let place: *const Hash = &*hash;
    let bytes = |place: *const Hash| unsafe { std::slice::from_raw_parts(place.cast::<u8>(), size_of::<Hash>()) }.to_vec();
    assert!(bytes(place).windows(32).any(|all| all == X));
    unsafe { ManuallyDrop::drop(&mut hash) };
    // what is left is its kind
    assert_eq!(bytes(place).iter().filter(|byte| **byte != 0).collect::<Vec<_>>(), [&64]);
}

#[test]
fn a_k_is_wiped_when_it_is_dropped() {
    let mut b = Buffers::new();
    let mut k = ManuallyDrop::new(K::new());
    server_at_secret(&mut b).sign(b"g", &mut [0; REPLY], &mut k).unwrap();
    let place: *const K = &*k;
    let bytes = |place: *const K| unsafe { std::slice::from_raw_parts(place.cast::<u8>(), size_of::<K>()) }.to_vec();
    let shows = |bytes: Vec<u8>| bytes.windows(4).any(|four| four == &X[..4]);
    assert!(shows(bytes(place)));
    unsafe { ManuallyDrop::drop(&mut k) };
    assert!(!shows(bytes(place)));
}

#[test]
fn a_key_is_wiped_when_it_is_dropped_and_where_a_shorter_one_takes_its_place() {
    let mut b = Buffers::new();
    let server = server_at_secret(&mut b).sign(b"g", &mut [0; REPLY], &mut K::new()).unwrap().0;
    let mut key = ManuallyDrop::new(Key::new());
    let place: *const Key = &*key;
    let bytes = || unsafe { std::slice::from_raw_parts(place.cast::<u8>(), size_of::<Key>()) }.to_vec();
    let shows = |of: &[u8]| bytes().windows(4).any(|four| of.windows(4).any(|all| all == four));
    server.derive(Letter::CipherKeyC2s, KEY_MOST, &mut key).unwrap();
    let all = key.as_bytes().to_vec();
    assert!(shows(&all[..16]) && shows(&all[16..]));
    server.derive(Letter::CipherKeyC2s, 16, &mut key).unwrap();
    assert!(shows(&all[..16]) && !shows(&all[16..]));
    unsafe { ManuallyDrop::drop(&mut key) };
    assert!(!shows(&all));
    // what is left is its length
    assert_eq!(bytes().iter().filter(|byte| **byte != 0).collect::<Vec<_>>(), [&16]);
}

#[test]
fn nothing_secret_is_shown() {
    let mut b = Buffers::new();
    let mut k = K::new();
    let mut shown = String::new();
    let client = client_at_secret(&mut b);
    write!(shown, "{:?} {:?} {:?} {:?} ", Classical::Given(&X), Kem::Done(&X), Kem::Failed, client).unwrap();
    let client = client.verdict(true, true, &mut k).unwrap();
    let mut key = Key::new();
    client.derive(Letter::IvS2c, 16, &mut key).unwrap();
    write!(shown, "{:?} {:?} {:?} {:?} ", client, k, key, client.session()).unwrap();
    drop(client);
    let refused = server_at_secret(&mut b).sign(&[], &mut [0; REPLY], &mut k).map(|_| ()).unwrap_err();
    write!(shown, "{:?} {} ", refused, refused).unwrap();
    let mut hash = Hash::start(Kind::Sha384);
    hash.feed(&X).unwrap();
    write!(shown, "{:?}", hash).unwrap();
    assert_eq!(
        shown,
        "Given(32 bytes) Done(32 bytes) Failed Exchange { role: 1, method: 1, stage: 4, .. } \
         Exchange { role: 1, method: 1, stage: 5, .. } K { .. } Key { .. } Session { completed: 1, .. } \
         Refused { refusal: BadInput, .. } a field, outcome, K_PQ or hash handed in has a wrong length or form, \
         a hash would be fed too much, or no key has that letter or length (4) \
         Hash { kind: Sha384, .. }"
    );
}
