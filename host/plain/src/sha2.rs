//! SHA-256, SHA-384 and SHA-512 by FIPS 180-4, fed in parts.

/// The most that one hash is fed in all.
pub const HASH_MOST: u64 = 65_536;
/// A digest with zeros after it.
pub const DIGEST: usize = 64;
/// A state as it is lent: kind; total and held, eight bytes each; value; tail.
pub const HASH_BYTES: usize = TAIL_AT + TAIL;

const TAIL: usize = 128;
const TOTAL_AT: usize = 1;
const HELD_AT: usize = TOTAL_AT + 8;
const VALUE_AT: usize = HELD_AT + 8;
const TAIL_AT: usize = VALUE_AT + DIGEST;

/// The fractions of the cube roots of the first 80 primes, 64 bits of each.
static K512: [u64; 80] = K;
/// 32 bits of the first 64.
static K256: [u32; 64] = high_halves(K);

/// The fractions of the square roots of the first eight primes, and of the next eight.
#[rustfmt::skip]
const H512: [u64; 8] = [
    0x6a09_e667_f3bc_c908, 0xbb67_ae85_84ca_a73b, 0x3c6e_f372_fe94_f82b, 0xa54f_f53a_5f1d_36f1,
    0x510e_527f_ade6_82d1, 0x9b05_688c_2b3e_6c1f, 0x1f83_d9ab_fb41_bd6b, 0x5be0_cd19_137e_2179,
];
#[rustfmt::skip]
const H384: [u64; 8] = [
    0xcbbb_9d5d_c105_9ed8, 0x629a_292a_367c_d507, 0x9159_015a_3070_dd17, 0x152f_ecd8_f70e_5939,
    0x6733_2667_ffc0_0b31, 0x8eb4_4a87_6858_1511, 0xdb0c_2e0d_64f9_8fa7, 0x47b5_481d_befa_4fa4,
];
const H256: [u32; 8] = high_halves(H512);

#[rustfmt::skip]
const K: [u64; 80] = [
    0x428a_2f98_d728_ae22, 0x7137_4491_23ef_65cd, 0xb5c0_fbcf_ec4d_3b2f, 0xe9b5_dba5_8189_dbbc,
    0x3956_c25b_f348_b538, 0x59f1_11f1_b605_d019, 0x923f_82a4_af19_4f9b, 0xab1c_5ed5_da6d_8118,
    0xd807_aa98_a303_0242, 0x1283_5b01_4570_6fbe, 0x2431_85be_4ee4_b28c, 0x550c_7dc3_d5ff_b4e2,
    0x72be_5d74_f27b_896f, 0x80de_b1fe_3b16_96b1, 0x9bdc_06a7_25c7_1235, 0xc19b_f174_cf69_2694,
    0xe49b_69c1_9ef1_4ad2, 0xefbe_4786_384f_25e3, 0x0fc1_9dc6_8b8c_d5b5, 0x240c_a1cc_77ac_9c65,
    0x2de9_2c6f_592b_0275, 0x4a74_84aa_6ea6_e483, 0x5cb0_a9dc_bd41_fbd4, 0x76f9_88da_8311_53b5,
    0x983e_5152_ee66_dfab, 0xa831_c66d_2db4_3210, 0xb003_27c8_98fb_213f, 0xbf59_7fc7_beef_0ee4,
    0xc6e0_0bf3_3da8_8fc2, 0xd5a7_9147_930a_a725, 0x06ca_6351_e003_826f, 0x1429_2967_0a0e_6e70,
    0x27b7_0a85_46d2_2ffc, 0x2e1b_2138_5c26_c926, 0x4d2c_6dfc_5ac4_2aed, 0x5338_0d13_9d95_b3df,
    0x650a_7354_8baf_63de, 0x766a_0abb_3c77_b2a8, 0x81c2_c92e_47ed_aee6, 0x9272_2c85_1482_353b,
    0xa2bf_e8a1_4cf1_0364, 0xa81a_664b_bc42_3001, 0xc24b_8b70_d0f8_9791, 0xc76c_51a3_0654_be30,
    0xd192_e819_d6ef_5218, 0xd699_0624_5565_a910, 0xf40e_3585_5771_202a, 0x106a_a070_32bb_d1b8,
    0x19a4_c116_b8d2_d0c8, 0x1e37_6c08_5141_ab53, 0x2748_774c_df8e_eb99, 0x34b0_bcb5_e19b_48a8,
    0x391c_0cb3_c5c9_5a63, 0x4ed8_aa4a_e341_8acb, 0x5b9c_ca4f_7763_e373, 0x682e_6ff3_d6b2_b8a3,
    0x748f_82ee_5def_b2fc, 0x78a5_636f_4317_2f60, 0x84c8_7814_a1f0_ab72, 0x8cc7_0208_1a64_39ec,
    0x90be_fffa_2363_1e28, 0xa450_6ceb_de82_bde9, 0xbef9_a3f7_b2c6_7915, 0xc671_78f2_e372_532b,
    0xca27_3ece_ea26_619c, 0xd186_b8c7_21c0_c207, 0xeada_7dd6_cde0_eb1e, 0xf57d_4f7f_ee6e_d178,
    0x06f0_67aa_7217_6fba, 0x0a63_7dc5_a2c8_98a6, 0x113f_9804_bef9_0dae, 0x1b71_0b35_131c_471b,
    0x28db_77f5_2304_7d84, 0x32ca_ab7b_40c7_2493, 0x3c9e_be0a_15c9_bebc, 0x431d_67c4_9c10_0d4c,
    0x4cc5_d4be_cb3e_42b6, 0x597f_299c_fc65_7e2a, 0x5fcb_6fab_3ad6_faec, 0x6c44_198c_4a47_5817,
];

const fn high_halves<const N: usize, const M: usize>(words: [u64; N]) -> [u32; M] {
    let mut halves = [0; M];
    let mut at = 0;
    while at < M {
        halves[at] = (words[at] >> 32) as u32;
        at += 1;
    }
    halves
}

/// A hash that is fed. Anyone can set its fields: it fits when the kind is one of three, no more than the most was
/// fed, and as many bytes wait as the total leaves over of its blocks. Value and tail may be any bytes.
#[derive(Clone, Copy, PartialEq, Eq, Debug)]
pub struct Hash {
    /// The digest's length: 32, 48 or 64.
    pub kind: u8,
    /// The bytes fed in all.
    pub total: u64,
    /// The bytes that wait for their block, at the front of the tail.
    pub held: u64,
    /// The hash value, each word with its high byte first; SHA-256 has 32 bytes of it.
    pub value: [u8; DIGEST],
    pub tail: [u8; TAIL],
}

/// What `hash_start` hands back for a kind that there is not.
impl Default for Hash {
    fn default() -> Self {
        Hash { kind: 0, total: 0, held: 0, value: [0; DIGEST], tail: [0; TAIL] }
    }
}

/// Both widths of the standard, its functions and their order: the whole blocks of a message through a value. What the
/// value has behind its eight words becomes zeros.
macro_rules! blocks {
    ($name:ident, $word:ty, $bytes:expr, $rounds:expr, $k:ident, $low0:expr, $low1:expr, $high0:expr, $high1:expr) => {
        fn $name(value: &mut [u8; DIGEST], message: &[u8]) {
            let mut state = [0; 8];
            for (word, bytes) in state.iter_mut().zip(value.chunks_exact($bytes)) {
                *word = word_of!($word, $bytes, bytes);
            }
            for block in message.chunks_exact(16 * $bytes) {
                let mut w: [$word; $rounds] = [0; $rounds];
                for (word, bytes) in w.iter_mut().zip(block.chunks_exact($bytes)) {
                    *word = word_of!($word, $bytes, bytes);
                }
                for t in 16..$rounds {
                    let (x, y) = (w[t - 15], w[t - 2]);
                    let s0 = x.rotate_right($low0.0) ^ x.rotate_right($low0.1) ^ (x >> $low0.2);
                    let s1 = y.rotate_right($low1.0) ^ y.rotate_right($low1.1) ^ (y >> $low1.2);
                    w[t] = s1.wrapping_add(w[t - 7]).wrapping_add(s0).wrapping_add(w[t - 16]);
                }
                let [mut a, mut b, mut c, mut d, mut e, mut f, mut g, mut h] = state;
                for t in 0..$rounds {
                    let s1 = e.rotate_right($high1.0) ^ e.rotate_right($high1.1) ^ e.rotate_right($high1.2);
                    let ch = (e & f) ^ (!e & g);
                    let t1 = h.wrapping_add(s1).wrapping_add(ch).wrapping_add($k[t]).wrapping_add(w[t]);
                    let s0 = a.rotate_right($high0.0) ^ a.rotate_right($high0.1) ^ a.rotate_right($high0.2);
                    let t2 = s0.wrapping_add((a & b) ^ (a & c) ^ (b & c));
                    (h, g, f, e, d, c, b, a) = (g, f, e, d.wrapping_add(t1), c, b, a, t1.wrapping_add(t2));
                }
                for (word, add) in state.iter_mut().zip([a, b, c, d, e, f, g, h]) {
                    *word = word.wrapping_add(add);
                }
            }
            *value = value_of!(state, $bytes);
        }
    };
}

/// The word that bytes are, the high one first.
macro_rules! word_of {
    ($word:ty, $bytes:expr, $slice:expr) => {{
        let mut bytes = [0; $bytes];
        bytes.copy_from_slice($slice);
        <$word>::from_be_bytes(bytes)
    }};
}

/// The bytes that words are, zeros behind.
macro_rules! value_of {
    ($words:expr, $bytes:expr) => {{
        let mut value = [0; DIGEST];
        for (bytes, word) in value.chunks_exact_mut($bytes).zip($words) {
            bytes.copy_from_slice(&word.to_be_bytes());
        }
        value
    }};
}

blocks!(blocks_32, u32, 4, 64, K256, (7, 18, 3), (17, 19, 10), (2, 13, 22), (6, 11, 25));
blocks!(blocks_64, u64, 8, 80, K512, (1, 8, 7), (19, 61, 6), (28, 34, 39), (14, 18, 41));

/// A fresh hash of a kind; 4 where there is no such kind, and what fits nothing.
pub fn hash_start(kind: u8) -> (u8, Hash) {
    let value = match kind {
        32 => value_of!(H256, 4),
        48 => value_of!(H384, 8),
        64 => value_of!(H512, 8),
        _ => return (4, Hash::default()),
    };
    (0, Hash { kind, value, ..Hash::default() })
}

impl Hash {
    /// The bytes of a block; 0 where there is no such kind.
    fn block(&self) -> usize {
        match self.kind {
            32 => 64,
            48 | 64 => 128,
            _ => 0,
        }
    }

    fn fits(&self) -> bool {
        let block = self.block() as u64;
        block > 0 && self.total <= HASH_MOST && self.held == self.total % block
    }

    fn whole_blocks(value: &mut [u8; DIGEST], block: usize, message: &[u8]) {
        if block == 64 {
            blocks_32(value, message);
        } else {
            blocks_64(value, message);
        }
    }

    /// Feeds a part; on 4 nothing changes, nor does it by an empty one.
    pub fn feed(&mut self, part: &[u8]) -> u8 {
        if !self.fits() || part.len() as u64 > HASH_MOST - self.total {
            return 4;
        }
        if !part.is_empty() {
            self.add(part);
        }
        0
    }

    /// A part that may be fed: what waits is filled up to a block, whole blocks go by, and the rest waits.
    fn add(&mut self, part: &[u8]) {
        let (block, held) = (self.block(), self.held as usize);
        let fill = part.len().min(block - held);
        self.tail[held..held + fill].copy_from_slice(&part[..fill]);
        self.total += part.len() as u64;
        self.held = self.total % block as u64;
        if held + fill < block {
            self.tail[held + fill..].fill(0);
            return;
        }
        Self::whole_blocks(&mut self.value, block, &self.tail[..block]);
        let (whole, rest) = part[fill..].split_at((part.len() - fill) / block * block);
        if !whole.is_empty() {
            Self::whole_blocks(&mut self.value, block, whole);
        }
        self.tail = [0; TAIL];
        self.tail[..rest.len()].copy_from_slice(rest);
    }

    /// The digest of what was fed; the state stays, and may be fed on. 4 and zeros for a state that does not fit.
    pub fn finish(&self) -> (u8, [u8; DIGEST]) {
        if self.fits() {
            (0, self.digest())
        } else {
            (4, [0; DIGEST])
        }
    }

    /// The padding block is zeros before the tail is laid in; where the length does not fit behind it, it takes one more.
    fn digest(&self) -> [u8; DIGEST] {
        let (block, held) = (self.block(), self.held as usize);
        let mut value = self.value;
        let mut last = [0; TAIL];
        last[..held].copy_from_slice(&self.tail[..held]);
        last[held] = 0x80;
        // the length in bits, in an eighth of the block, whose other bytes are zeros
        if held + 1 > block - block / 8 {
            Self::whole_blocks(&mut value, block, &last[..block]);
            last = [0; TAIL];
        }
        last[block - 8..block].copy_from_slice(&(8 * self.total).to_be_bytes());
        Self::whole_blocks(&mut value, block, &last[..block]);
        value[usize::from(self.kind)..].fill(0);
        value
    }

    /// The state as it is lent.
    pub fn bytes(&self) -> [u8; HASH_BYTES] {
        let mut bytes = [0; HASH_BYTES];
        bytes[0] = self.kind;
        bytes[TOTAL_AT..HELD_AT].copy_from_slice(&self.total.to_be_bytes());
        bytes[HELD_AT..VALUE_AT].copy_from_slice(&self.held.to_be_bytes());
        bytes[VALUE_AT..TAIL_AT].copy_from_slice(&self.value);
        bytes[TAIL_AT..].copy_from_slice(&self.tail);
        bytes
    }

    /// The state in lent bytes, whatever they are.
    pub fn of(bytes: &[u8; HASH_BYTES]) -> Hash {
        let mut hash = Hash {
            kind: bytes[0],
            total: word_of!(u64, 8, &bytes[TOTAL_AT..HELD_AT]),
            held: word_of!(u64, 8, &bytes[HELD_AT..VALUE_AT]),
            ..Hash::default()
        };
        hash.value.copy_from_slice(&bytes[VALUE_AT..TAIL_AT]);
        hash.tail.copy_from_slice(&bytes[TAIL_AT..]);
        hash
    }
}

/// The digest of parts joined, of a kind that there is and no more of them than a hash is fed.
pub(crate) fn hash_of(kind: usize, parts: [&[u8]; 2]) -> [u8; DIGEST] {
    let (_, mut hash) = hash_start(kind as u8);
    for part in parts {
        hash.feed(part);
    }
    hash.finish().1
}
