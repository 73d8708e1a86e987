//! SHA-2: published digests, parts and states, and what does not fit.

use plain::*;

/// The kinds, each with the bytes of its block.
const KINDS: [(u8, usize); 3] = [(32, 64), (48, 128), (64, 128)];

fn fresh(kind: u8) -> Hash {
    let (number, hash) = hash_start(kind);
    assert_eq!(number, 0);
    hash
}

fn fed(mut hash: Hash, part: &[u8]) -> Hash {
    assert_eq!(hash.feed(part), 0);
    hash
}

/// The digest, and zeros behind it.
fn finished(hash: &Hash) -> Vec<u8> {
    let (number, digest) = hash.finish();
    let (digest, behind) = digest.split_at(hash.kind.into());
    assert!(number == 0 && behind.iter().all(|&byte| byte == 0));
    digest.to_vec()
}

fn digest(kind: u8, message: &[u8]) -> Vec<u8> {
    finished(&fed(fresh(kind), message))
}

fn hex(bytes: &[u8]) -> String {
    bytes.iter().map(|byte| format!("{byte:02x}")).collect()
}

fn message(len: usize) -> Vec<u8> {
    (0..len).map(|at| (7 * at + 3) as u8).collect()
}

#[test]
fn published_examples() {
    // FIPS 180-4's own, and the empty message
    assert_eq!(hex(&digest(32, b"abc")), "ba7816bf8f01cfea414140de5dae2223b00361a396177a9cb410ff61f20015ad");
    assert_eq!(
        hex(&digest(32, b"abcdbcdecdefdefgefghfghighijhijkijkljklmklmnlmnomnopnopq")),
        "248d6a61d20638b8e5c026930c3e6039a33ce45964ff2167f6ecedd419db06c1"
    );
    assert_eq!(
        hex(&digest(48, b"abc")),
        "cb00753f45a35e8bb5a03d699ac65007272c32ab0eded1631a8b605a43ff5bed8086072ba1e7cc2358baeca134c825a7"
    );
    assert_eq!(
        hex(&digest(64, b"abc")),
        "ddaf35a193617abacc417349ae20413112e6fa4e89a97ea20a9eeee64b55d39a\
         2192992a274fc1a836ba3c23a3feebbd454d4423643ce80e2a9ac94fa54ca49f"
    );
    assert_eq!(hex(&digest(32, b"")), "e3b0c44298fc1c149afbf4c8996fb92427ae41e4649b934ca495991b7852b855");
    assert_eq!(
        hex(&digest(48, b"")),
        "38b060a751ac96384cd9327eb1b1e36a21fdb71114be07434c0cc7bf63f6e1da274edebfe76f65fbd51ad2f14898b95b"
    );
    assert_eq!(
        hex(&digest(64, b"")),
        "cf83e1357eefb8bdf1542850d66d8007d620e4050b5715dc83f4a921d36ce9ce\
         47d0d13c5d85f2b0ff8318d2877eec2f63b931bd47417a81a538327af927da3e"
    );
}

/// The digests of messages of 0 to 300 bytes, so of every tail twice, hashed one behind another; and of the most that a
/// hash is fed. The right sides are OpenSSL's.
#[test]
fn every_tail_and_the_longest_message() {
    let all = [
        "7d917fbd2cf49ddff9ad0a8706bba32d204e92e71d2e369c5a03d6af29278c9f",
        "efec719c84acba157f057b3a8be4ab46d8d39b7f85dca15c051420621873dcdbf6b165d5061f55337fce615e1957e330",
        "404431b1c0eac12729b20176c61b0e1c561b6b20d2ecbb7ee1126c361943d724\
         d7c0814a8daf5c3a2a7d3e431a0aaf58c12f96d8c3370582b777fd375c3c972f",
    ];
    let longest = [
        "bf718b6f653bebc184e1479f1935b8da974d701b893afcf49e701f3e2f9f9c5a",
        "c0675b21a7e5017efac4c32d72a372c41cca817204a5cb6f055cbdd3de3a66b8136bf521a6f7ea9cbe86927f45de6d25",
        "3d7f4d370531902d128619b9b9fb424b598b5fb11e92f44654e8bb754deed22c\
         6cd5587482bd5d3bf506b05818848931a1e5627a542ba6aa4b7a27e003355291",
    ];
    let whole = message(300);
    for ((kind, _), (all, longest)) in KINDS.into_iter().zip(all.into_iter().zip(longest)) {
        let chain = (0..=300).fold(fresh(kind), |chain, len| fed(chain, &digest(kind, &whole[..len])));
        assert_eq!(hex(&finished(&chain)), all);
        assert_eq!(hex(&digest(kind, &[b'a'; HASH_MOST as usize])), longest);
    }
}

#[test]
fn two_parts_are_the_parts_joined() {
    let whole = message(400);
    for (kind, block) in KINDS {
        let edges = [0, 1, block - 1, block, block + 1, 2 * block - 1, 2 * block, 400 - 2 * block];
        for first in edges {
            let one = fed(fresh(kind), &whole[..first]);
            assert_eq!((one.total, one.held), (first as u64, (first % block) as u64));
            assert_eq!(one.tail[..first % block], whole[first - first % block..first]);
            assert!(one.tail[first % block..].iter().all(|&byte| byte == 0));
            for second in edges {
                let joined = &whole[..(first + second).min(400)];
                assert_eq!(fed(one, &joined[first..]), fed(fresh(kind), joined));
            }
            assert_eq!(fed(one, b""), one);
            assert_eq!(finished(&one), digest(kind, &whole[..first]));
        }
        let bytes = whole.chunks(1).fold(fresh(kind), fed);
        assert_eq!(bytes, fed(fresh(kind), &whole));
    }
}

#[test]
fn value_and_tail_are_any_bytes() {
    for (kind, block) in KINDS {
        let forged = Hash { value: [0xee; DIGEST], tail: [0xdd; 128], ..fed(fresh(kind), b"abc") };
        assert_eq!(fed(forged, b""), forged);
        // no block is filled: the value stays as it is, and behind what waits are zeros
        let more = fed(forged, b"d");
        assert_eq!(more.value, forged.value);
        assert_eq!((&more.tail[..4], &more.tail[4..]), (&[0xdd, 0xdd, 0xdd, b'd'][..], &[0; 124][..]));
        // one is: the value is its words, and zeros behind them
        let words = if kind == 32 { 32 } else { DIGEST };
        let full = fed(forged, &vec![7; block - 3]);
        assert_eq!((full.held, full.tail), (0, [0; 128]));
        assert!(full.value[..words] != forged.value[..words] && full.value[words..].iter().all(|&byte| byte == 0));
        // what stands behind the words and behind the waiting bytes is in no digest
        let mut same = Hash { tail: [0xdd; 128], ..forged };
        same.value[words..].fill(1);
        same.tail[3..].fill(1);
        assert_eq!(finished(&same), finished(&forged));
        // the recorded total is in the padding, also where it was moved by whole blocks
        let moved = Hash { total: forged.total + 5 * block as u64, ..forged };
        assert_ne!(finished(&moved), finished(&forged));
    }
}

#[test]
fn no_such_kind() {
    for kind in (0..=255).filter(|kind| !matches!(kind, 32 | 48 | 64)) {
        assert_eq!(hash_start(kind), (4, Hash::default()));
        let forged = Hash { kind, ..fresh(32) };
        refused(forged, b"");
    }
}

/// A state that fits nothing: 4 for any part, the empty one too, and for its digest; nothing changes.
fn refused(hash: Hash, part: &[u8]) {
    let mut same = hash;
    assert_eq!((same.feed(part), same), (4, hash));
}

fn unfit(hash: Hash) {
    refused(hash, b"");
    refused(hash, b"a");
    assert_eq!(hash.finish(), (4, [0; DIGEST]));
}

#[test]
fn states_that_do_not_fit() {
    unfit(Hash::default());
    for (kind, block) in KINDS {
        let block = block as u64;
        let hash = fed(fresh(kind), &message(100));
        for held in (0..=block).chain([hash.held + block, 1 << 32 | hash.held, u64::MAX]) {
            if held != hash.held {
                unfit(Hash { held, ..hash });
            }
        }
        for total in [99, 101, 100 + block / 2] {
            unfit(Hash { total, ..hash });
        }
        for total in [HASH_MOST + 1, HASH_MOST + block, 1 << 32 | 100, u64::MAX] {
            unfit(Hash { total, held: total % block, ..hash });
        }
    }
}

#[test]
fn no_more_than_65_536_bytes_in_all() {
    let whole = message(65_537);
    for (kind, _) in KINDS {
        refused(fresh(kind), &whole);
        let most = fed(fresh(kind), &whole[..65_536]);
        assert_eq!(fed(most, b""), most);
        refused(most, b"a");
        let less = fed(fresh(kind), &whole[..65_535]);
        refused(less, b"ab");
        assert_eq!(fed(less, &whole[65_535..65_536]), most);
        assert_eq!(finished(&most), digest(kind, &whole[..65_536]));
    }
}

#[test]
fn a_state_as_it_is_lent() {
    let hash = fed(fresh(48), &message(200));
    let bytes = hash.bytes();
    assert_eq!((bytes.len(), HASH_BYTES), (209, 209));
    assert_eq!(bytes[..17], [48, 0, 0, 0, 0, 0, 0, 0, 200, 0, 0, 0, 0, 0, 0, 0, 72]);
    assert_eq!((&bytes[17..81], &bytes[81..]), (&hash.value[..], &hash.tail[..]));
    assert_eq!(Hash::of(&bytes), hash);
    let any: [u8; 209] = std::array::from_fn(|at| 255 - at as u8);
    assert_eq!(Hash::of(&any).bytes(), any);
    // the initial hash value of SHA-256, zeros behind it
    assert_eq!(fresh(32).value[..4], [0x6a, 0x09, 0xe6, 0x67]);
    assert_eq!(fresh(32).value[32..], [0; 32]);
}
