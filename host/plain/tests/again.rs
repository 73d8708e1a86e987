//! Rekeying: a complete exchange begins again, and what its record keeps of the whole session.

use plain::*;

const ROLES: [u8; 2] = [1, 2];
const V_C: &[u8] = b"SSH-2.0-client";
const V_S: &[u8] = b"SSH-2.0-server";
/// One method of each digest length, and the longest and the shortest values.
const METHODS: [u8; 4] = [1, 3, 5, 8];

fn string(body: &[u8]) -> Vec<u8> {
    [&(body.len() as u32).to_be_bytes(), body].concat()
}

fn strings(fields: &[&[u8]]) -> Vec<u8> {
    fields.iter().flat_map(|field| string(field)).collect()
}

fn row(number: u8) -> &'static Method {
    method(number).unwrap()
}

/// What an exchange is fed, by one byte that tells it from another.
struct Fed {
    c: Vec<u8>,
    s: Vec<u8>,
    x: Vec<u8>,
    k_pq: Vec<u8>,
    kem: Kem,
}

fn fed(number: u8, with: u8) -> Fed {
    let row = row(number);
    let value = |len: usize, classical: usize| {
        let mut value = vec![with; len];
        value[classical] = 4;
        value
    };
    let (kem, k_pq) = if row.hybrid { (Kem::Done, vec![!with; K_PQ]) } else { (Kem::Absent, vec![]) };
    Fed {
        c: value(row.c_len, row.c_classical),
        s: value(row.s_len, row.s_classical),
        x: vec![with; row.x_len],
        k_pq,
        kem,
    }
}

/// Each step from a beginning to the last, and the exchange behind each.
fn driven(e: Exchange, fed: &Fed, room: &mut [u8]) -> Vec<Exchange> {
    let mut all = vec![e];
    let mut step = |answer: Answer| {
        assert_eq!(answer.number, 0);
        all.push(answer.exchange);
        answer.exchange
    };
    let given = Classical::Given(fed.x.len());
    let (mut out, mut k_out) = ([0; REPLY_OUT], [0; K_RECORD]);
    if e.role == 1 {
        let reply = [vec![31], strings(&[b"key", &fed.s, b"signature"])].concat();
        let e = step(own_c(e, room, &fed.c, &mut out));
        let e = step(read_reply(e, room, &reply));
        let e = step(take_secret(e, room, given, &fed.x, fed.kem, &fed.k_pq, b"", b""));
        step(verdict(e, room, true, true, &mut k_out));
    } else {
        let e = step(read_init(e, room, &[vec![30], string(&fed.c)].concat()));
        let e = step(take_secret(e, room, given, &fed.x, fed.kem, &fed.k_pq, b"key", &fed.s));
        step(sign(e, room, b"signature", &mut out, &mut k_out));
    }
    all
}

fn started(role: u8, number: u8, room: &mut [u8]) -> Exchange {
    start(role, number, V_C, V_S, &[20, 1], &[20, 2, 3], room).exchange
}

/// A complete first exchange.
fn first(role: u8, number: u8, room: &mut [u8]) -> Exchange {
    let e = started(role, number, room);
    *driven(e, &fed(number, 0x31), room).last().unwrap()
}

fn refusal(number: u8, exchange: Exchange) -> Answer {
    Answer { number, exchange, ..Answer::default() }
}

fn hashed(number: u8, message: &[u8]) -> [u8; H] {
    let (_, mut hash) = hash_start(row(number).digest_len as u8);
    assert_eq!(hash.feed(message), 0);
    hash.finish().1
}

/// Three exchanges in every order of methods: from each beginning on the room begins with the fields so far and the rest
/// is as the last exchange left it; the identifier is the first one's H throughout.
#[test]
fn three_exchanges() {
    for (role, one) in ROLES.into_iter().flat_map(|role| METHODS.map(|one| (role, one))) {
        for (two, three) in METHODS.into_iter().flat_map(|two| METHODS.map(|three| (two, three))) {
            let mut room = vec![0xa5; ROOM + 7];
            let mut e = first(role, one, &mut room);
            let id = e.h;
            assert_eq!(e.session, Session { id, id_len: row(one).digest_len, completed: 1 });
            for (number, with, i_c, i_s, completed) in [(two, 0x32, 1, 4096, 1), (three, 0x33, 300, 2, 2)] {
                let (i_c, i_s) = (vec![20; i_c], vec![20; i_s]);
                let was = room.clone();
                let answer = again(e, number, &i_c, &i_s, &mut room);
                let session = Session { id, id_len: row(one).digest_len, completed };
                let lens = [V_C.len(), V_S.len(), i_c.len(), i_s.len(), 0, 0, 0];
                let begun =
                    Exchange { role, method: number, stage: Stage::Started, lens, session, ..Exchange::default() };
                assert_eq!(answer, Answer { exchange: begun, ..Answer::default() });
                let begin = strings(&[V_C, V_S, &i_c, &i_s]);
                assert!(room[..begin.len()] == begin && room[begin.len()..] == was[begin.len()..]);

                let fed = fed(number, with);
                let all = driven(begun, &fed, &mut room);
                e = *all.last().unwrap();
                assert!(all[..all.len() - 1].iter().all(|e| e.session == session));
                assert_eq!(e.session, Session { completed: completed + 1, ..session });
                let k_len = 4 + usize::from(e.k[3]);
                let input = [strings(&[V_C, V_S, &i_c, &i_s, b"key", &fed.c, &fed.s]), e.k[..k_len].to_vec()].concat();
                assert_eq!(room[..input.len()], input);
                assert_eq!(e.h, hashed(number, &input));

                // keys: K, H and the hash of this exchange, the identifier of the first
                let mut key = [0; KEY_MOST];
                assert_eq!(derive(&e, b'E', KEY_MOST, &mut key), 0);
                let h = &e.h[..row(number).digest_len];
                let k1 = hashed(number, &[&e.k[..k_len], h, b"E", &id[..row(one).digest_len]].concat());
                assert_eq!(key[..h.len()], k1[..h.len()]);
                let k2 = hashed(number, &[&e.k[..k_len], h, &k1[..h.len()]].concat());
                let more = h.len().min(KEY_MOST - h.len());
                assert_eq!(key[h.len()..h.len() + more], k2[..more]);
            }
        }
    }
}

/// 1, 2, 3, 4, 23: each ahead of all that follow it, and nothing changes.
#[test]
fn refusals_in_their_order() {
    for role in ROLES {
        let mut room = vec![0xa5; ROOM];
        let e = first(role, 4, &mut room);
        let full = Exchange { session: Session { completed: COMPLETED_MOST, ..e.session }, ..e };
        let (good, long) = (vec![20; 4096], vec![20; 4097]);
        let was = room.clone();
        for number in [0, 10, 11, 255] {
            assert_eq!(again(full, number, &[], &[], &mut room[1..]), refusal(2, full));
        }
        assert_eq!(again(full, 1, &[], &[], &mut room[1..]), refusal(3, full));
        assert_eq!(again(full, 1, &[], &[], &mut []), refusal(3, full));
        for (i_c, i_s) in
            [(&[][..], &[20][..]), (&[20], &[]), (&[20], &[21]), (&[30], &[20]), (&long, &good), (&good, &long)]
        {
            for e in [e, full] {
                assert_eq!(again(e, 1, i_c, i_s, &mut room), refusal(4, e));
            }
        }
        for number in 1..=9 {
            assert_eq!(again(full, number, &good, &[20], &mut room), refusal(23, full));
        }
        assert_eq!(room, was);
        // a refused one is complete as before: its keys, and another try
        assert_eq!(derive(&full, b'A', 1, &mut [0]), 0);
        let last = Exchange { session: Session { completed: COMPLETED_MOST - 1, ..e.session }, ..e };
        let begun = again(last, 4, &good, &[20], &mut room).exchange;
        let done = *driven(begun, &fed(4, 0x32), &mut room).last().unwrap();
        assert_eq!(done.session, full.session);
        assert_eq!(again(done, 4, &good, &[20], &mut room), refusal(23, done));
    }
}

/// 1 unless complete and fitting, whatever else is wrong.
#[test]
fn only_what_is_complete_begins_again() {
    for (role, number) in ROLES.into_iter().flat_map(|role| METHODS.map(|number| (role, number))) {
        let mut room = vec![0; ROOM];
        let e = started(role, number, &mut room);
        let all = driven(e, &fed(number, 0x31), &mut room);
        let was = room.clone();
        let mut refused = |e: Exchange| {
            for (to, i) in [(1, &[20][..]), (0, &[]), (number, &[20])] {
                assert_eq!(again(e, to, i, i, &mut room), refusal(1, e));
                assert_eq!(again(e, to, i, i, &mut []), refusal(1, e));
            }
        };
        let (done, early) = all.split_last().unwrap();
        early.iter().for_each(|e| refused(*e));
        refused(Exchange::default());
        refused(Exchange { stage: Stage::Failed(12), ..*done });
        refused(Exchange { role: 3, ..*done });
        refused(Exchange { method: 0, ..*done });
        for (field, len) in [(0, 0), (1, 254), (2, 4097), (3, 0), (4, 2049), (5, 0), (6, usize::MAX)] {
            let mut forged = *done;
            forged.lens[field] = len;
            refused(forged);
        }
        refused(Exchange { k: [0xff; K_RECORD], ..*done });
        assert_eq!(room, was);
        assert_eq!(again(*done, 1, &[20], &[20], &mut room).number, 0);
    }
}

/// The V's are taken as they stand, their length bytes too; where they stand goes by the recorded lengths.
#[test]
fn versions_are_not_judged() {
    for byte in [0, 10, 13, 255] {
        let mut room = vec![0xa5; ROOM];
        let e = first(1, 1, &mut room);
        let end = 8 + V_C.len() + V_S.len();
        room[..end].fill(byte);
        let begun = again(e, 3, &[20, 5], &[20, 6, 7], &mut room).exchange;
        assert_eq!(begun.lens, [V_C.len(), V_S.len(), 2, 3, 0, 0, 0]);
        assert!(room[..end].iter().all(|&at| at == byte));
        assert_eq!(room[end..end + 13], strings(&[&[20, 5], &[20, 6, 7]]));
        // and hashed so
        let fed = fed(3, 0x32);
        let done = *driven(begun, &fed, &mut room).last().unwrap();
        let rest = strings(&[&[20, 5], &[20, 6, 7], b"key", &fed.c, &fed.s, &fed.x]);
        assert_eq!(done.h, hashed(3, &[vec![byte; end], rest].concat()));
    }
}

/// A peer's fault at any step of a later exchange, and the only thing left then is what the session has.
#[test]
fn a_fault_keeps_the_session() {
    for role in ROLES {
        let mut room = vec![0xa5; ROOM];
        let done = first(role, 5, &mut room);
        let begun = again(done, 1, &[20], &[20], &mut room).exchange;
        let all = driven(begun, &fed(1, 0x32), &mut room);
        for e in &all[..all.len() - 1] {
            let answer = match (e.stage, role) {
                (Stage::Started, 2) => read_init(*e, &mut room, &[30]),
                (Stage::OwnC, _) => read_reply(*e, &mut room, &[]),
                (Stage::Reply | Stage::Init, _) => {
                    take_secret(*e, &mut room, Classical::Failed, &[], Kem::Absent, &[], b"key", &[7; 32])
                }
                (Stage::Secret, 1) => verdict(*e, &mut room, true, false, &mut [0; K_RECORD]),
                _ => continue, // a step of the host's own
            };
            assert!((10..=18).contains(&answer.number));
            let (stage, session) = (Stage::Failed(answer.number), done.session);
            let failed = Exchange { role, method: 1, stage, session, ..Exchange::default() };
            assert_eq!(answer.exchange, failed);
            assert!(room.iter().all(|&byte| byte == 0));
            assert_eq!(derive(&failed, b'A', 16, &mut [0; 16]), 1);
            assert_eq!(again(failed, 1, &[20], &[20], &mut room), refusal(1, failed));
        }
        // a start forgets it, refused or not
        assert_eq!(start(role, 1, V_C, V_S, &[20], &[20], &mut room).exchange.session, Session::default());
        assert_eq!(start(role, 0, V_C, V_S, &[20], &[20], &mut room).exchange.session, Session::default());
    }
}

/// The identifier is the record's H with all its 64 bytes, whoever wrote them, and from then on nobody's step changes it.
#[test]
fn the_identifier_is_taken_as_it_stands() {
    let mut room = vec![0; ROOM];
    let all = driven(started(2, 5, &mut room), &fed(5, 0x31), &mut room);
    let forged = Session { id: [0xee; H], ..Session::default() };
    let e = Exchange { h: [0xdd; H], session: forged, ..all[2] };
    let done = sign(e, &room, b"g", &mut [0; REPLY_OUT], &mut [0; K_RECORD]).exchange;
    assert_eq!(done.session, Session { id: [0xdd; H], id_len: 48, completed: 1 });
    let begun = again(Exchange { h: [0xcc; H], ..done }, 3, &[20], &[20], &mut room).exchange;
    let all = driven(begun, &fed(3, 0x32), &mut room);
    let e = Exchange { session: Session { id: [0xbb; H], id_len: 32, completed: 41 }, ..all[2] };
    let done = sign(e, &room, b"g", &mut [0; REPLY_OUT], &mut [0; K_RECORD]).exchange;
    assert_eq!(done.session, Session { id: [0xbb; H], id_len: 32, completed: 42 });
}

/// Count and identifier's length at every stage: which of them fit.
#[test]
fn sessions_that_do_not_fit() {
    let counts =
        [0, 1, 2, 255, COMPLETED_MOST - 1, COMPLETED_MOST, COMPLETED_MOST + 1, COMPLETED_MOST + 2, 1 << 63, u64::MAX];
    let id_lens = [0, 1, 31, 32, 33, 47, 48, 49, 63, 64, 65, 256 + 32, 65_535, (1 << 32) + 64, usize::MAX];
    for (role, number) in ROLES.into_iter().flat_map(|role| METHODS.map(|number| (role, number))) {
        let mut room = vec![0; ROOM];
        let fed = fed(number, 0x31);
        let all = driven(started(role, number, &mut room), &fed, &mut room);
        for (e, completed, id_len) in all
            .iter()
            .flat_map(|e| counts.map(|count| (e, count)))
            .flat_map(|(e, count)| id_lens.map(|id_len| (e, count, id_len)))
        {
            let complete = e.stage == Stage::Complete;
            let fits = match completed {
                0 => id_len == 0 && !complete,
                1..4_294_967_295 => [32, 48, 64].contains(&id_len),
                4_294_967_295 => [32, 48, 64].contains(&id_len) && complete,
                _ => false,
            };
            let e = Exchange { session: Session { id: [9; H], id_len, completed }, ..*e };
            let (mut out, mut k_out) = ([0; REPLY_OUT], [0; K_RECORD]);
            let given = Classical::Given(fed.x.len());
            let reply = [vec![31], strings(&[b"key", &fed.s, b"signature"])].concat();
            // the step that is due; of a complete one, beginning again and a key
            let answer = match (e.stage, role) {
                (Stage::Started, 1) => own_c(e, &mut room, &fed.c, &mut out),
                (Stage::Started, _) => read_init(e, &mut room, &[vec![30], string(&fed.c)].concat()),
                (Stage::OwnC, _) => read_reply(e, &mut room, &reply),
                (Stage::Init | Stage::Reply, _) => {
                    take_secret(e, &mut room, given, &fed.x, fed.kem, &fed.k_pq, b"key", &fed.s)
                }
                (Stage::Secret, 1) => verdict(e, &mut room, true, true, &mut k_out),
                (Stage::Secret, _) => sign(e, &room, b"signature", &mut out, &mut k_out),
                _ => again(e, number, &[20], &[20], &mut room),
            };
            let number = match (fits, complete && completed == COMPLETED_MOST) {
                (false, _) => 1,
                (true, full) => 23 * u8::from(full),
            };
            assert_eq!(answer.number, number, "{:?} {completed} {id_len}", e.stage);
            if number != 0 {
                assert_eq!(answer.exchange, e);
            }
            assert_eq!(derive(&e, b'A', 16, &mut [0; 16]), u8::from(!(fits && complete)));
        }
    }
}
