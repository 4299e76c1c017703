//! SHA-256 and the one-time scheme in plain portable Rust, written from docs/RULES.md and FIPS 180-4.
const K: [u32; 64] = [
    0x428a2f98, 0x71374491, 0xb5c0fbcf, 0xe9b5dba5, 0x3956c25b, 0x59f111f1, 0x923f82a4, 0xab1c5ed5, 0xd807aa98, 0x12835b01,
    0x243185be, 0x550c7dc3, 0x72be5d74, 0x80deb1fe, 0x9bdc06a7, 0xc19bf174, 0xe49b69c1, 0xefbe4786, 0x0fc19dc6, 0x240ca1cc,
    0x2de92c6f, 0x4a7484aa, 0x5cb0a9dc, 0x76f988da, 0x983e5152, 0xa831c66d, 0xb00327c8, 0xbf597fc7, 0xc6e00bf3, 0xd5a79147,
    0x06ca6351, 0x14292967, 0x27b70a85, 0x2e1b2138, 0x4d2c6dfc, 0x53380d13, 0x650a7354, 0x766a0abb, 0x81c2c92e, 0x92722c85,
    0xa2bfe8a1, 0xa81a664b, 0xc24b8b70, 0xc76c51a3, 0xd192e819, 0xd6990624, 0xf40e3585, 0x106aa070, 0x19a4c116, 0x1e376c08,
    0x2748774c, 0x34b0bcb5, 0x391c0cb3, 0x4ed8aa4a, 0x5b9cca4f, 0x682e6ff3, 0x748f82ee, 0x78a5636f, 0x84c87814, 0x8cc70208,
    0x90befffa, 0xa4506ceb, 0xbef9a3f7, 0xc67178f2,
];
const START: [u32; 8] =
    [0x6a09e667, 0xbb67ae85, 0x3c6ef372, 0xa54ff53a, 0x510e527f, 0x9b05688c, 0x1f83d9ab, 0x5be0cd19];

fn compress(state: &mut [u32; 8], block: &[u8]) {
    let mut w = [0u32; 64];
    for (word, bytes) in w.iter_mut().zip(block.chunks_exact(4)) {
        *word = u32::from_be_bytes(bytes.try_into().unwrap());
    }
    for t in 16..64 {
        let s0 = w[t - 15].rotate_right(7) ^ w[t - 15].rotate_right(18) ^ (w[t - 15] >> 3);
        let s1 = w[t - 2].rotate_right(17) ^ w[t - 2].rotate_right(19) ^ (w[t - 2] >> 10);
        w[t] = w[t - 16].wrapping_add(s0).wrapping_add(w[t - 7]).wrapping_add(s1);
    }
    let [mut a, mut b, mut c, mut d, mut e, mut f, mut g, mut h] = *state;
    for t in 0..64 {
        let s1 = e.rotate_right(6) ^ e.rotate_right(11) ^ e.rotate_right(25);
        let t1 = h.wrapping_add(s1).wrapping_add((e & f) ^ (!e & g)).wrapping_add(K[t]).wrapping_add(w[t]);
        let s0 = a.rotate_right(2) ^ a.rotate_right(13) ^ a.rotate_right(22);
        let t2 = s0.wrapping_add((a & b) ^ (a & c) ^ (b & c));
        (h, g, f, e, d, c, b, a) = (g, f, e, d.wrapping_add(t1), c, b, a, t1.wrapping_add(t2));
    }
    for (s, v) in state.iter_mut().zip([a, b, c, d, e, f, g, h]) {
        *s = s.wrapping_add(v);
    }
}

pub fn sha256(bytes: &[u8]) -> [u8; 32] {
    let mut state = START;
    let blocks = bytes.chunks_exact(64);
    let rest = blocks.remainder();
    for block in blocks {
        compress(&mut state, block);
    }
    let mut last = [0u8; 128];
    last[..rest.len()].copy_from_slice(rest);
    last[rest.len()] = 0x80;
    let end = if rest.len() < 56 { 64 } else { 128 };
    last[end - 8..end].copy_from_slice(&(8 * bytes.len() as u64).to_be_bytes());
    for block in last[..end].chunks_exact(64) {
        compress(&mut state, block);
    }
    let mut digest = [0; 32];
    for (out, word) in digest.chunks_exact_mut(4).zip(state) {
        out.copy_from_slice(&word.to_be_bytes());
    }
    digest
}

const CHAINS: usize = 67;
type Hash = [u8; 32];

fn start(turn: u8, chain: u8, secret: &Hash) -> Hash {
    let mut part = [0; 35];
    part[1] = turn;
    part[2] = chain;
    part[3..].copy_from_slice(secret);
    sha256(&part)
}

fn walk(turn: u8, chain: u8, from: u8, to: u8, value: Hash) -> Hash {
    let mut part = [1; 36];
    part[1] = turn;
    part[2] = chain;
    part[4..].copy_from_slice(&value);
    for position in from..to {
        part[3] = position;
        let next = sha256(&part);
        part[4..].copy_from_slice(&next);
    }
    part[4..].try_into().unwrap()
}

fn digits(digest: &Hash) -> [u8; CHAINS] {
    let mut digits = [0; CHAINS];
    for (pair, byte) in digits.chunks_exact_mut(2).zip(digest) {
        pair[0] = byte >> 4;
        pair[1] = byte & 15;
    }
    let sum: u16 = digits[..64].iter().map(|d| u16::from(15 - d)).sum();
    digits[64] = (sum >> 8) as u8;
    digits[65] = (sum >> 4 & 15) as u8;
    digits[66] = (sum & 15) as u8;
    digits
}

fn leaf(turn: u8, ends: &[Hash; CHAINS]) -> Hash {
    let mut part = [0; 2 + 32 * CHAINS];
    part[0] = 2;
    part[1] = turn;
    for (place, end) in part[2..].chunks_exact_mut(32).zip(ends) {
        place.copy_from_slice(end);
    }
    sha256(&part)
}

fn node(level: u8, left: &Hash, right: &Hash) -> Hash {
    let mut part = [3; 66];
    part[1] = level;
    part[2..34].copy_from_slice(left);
    part[34..].copy_from_slice(right);
    sha256(&part)
}

fn ends(turn: u8, secret: &Hash) -> [Hash; CHAINS] {
    std::array::from_fn(|i| walk(turn, i as u8, 0, 15, start(turn, i as u8, secret)))
}

/// The levels of the tree, from the 32 leaves to the root.
fn tree(secret: &Hash) -> Vec<Vec<Hash>> {
    let mut levels = vec![(0..32).map(|turn| leaf(turn, &ends(turn, secret))).collect::<Vec<_>>()];
    for level in 0..5 {
        let above = levels[level].chunks_exact(2).map(|pair| node(level as u8, &pair[0], &pair[1])).collect();
        levels.push(above);
    }
    levels
}

pub fn root(secret: &Hash) -> Hash {
    tree(secret)[5][0]
}

/// The signature, if the secret fits the public key.
pub fn sign(public: &Hash, secret: &Hash, turn: u8, digest: &Hash) -> Option<[u8; 2304]> {
    let levels = tree(secret);
    if levels[5][0] != *public || turn > 31 {
        return None;
    }
    let mut signature = [0; 2304];
    let mut places = signature.chunks_exact_mut(32);
    for (chain, digit) in digits(digest).into_iter().enumerate() {
        let value = walk(turn, chain as u8, 0, digit, start(turn, chain as u8, secret));
        places.next().unwrap().copy_from_slice(&value);
    }
    for (level, place) in places.enumerate() {
        place.copy_from_slice(&levels[level][turn as usize >> level ^ 1]);
    }
    Some(signature)
}

pub fn check(public: &Hash, turn: u8, digest: &Hash, signature: &[u8]) -> bool {
    if turn > 31 || signature.len() != 2304 {
        return false;
    }
    let at = |i: usize| -> Hash { signature[32 * i..32 * i + 32].try_into().unwrap() };
    let digits = digits(digest);
    let ends = std::array::from_fn(|i| walk(turn, i as u8, digits[i], 15, at(i)));
    let mut value = leaf(turn, &ends);
    for level in 0..5 {
        let sibling = at(CHAINS + level);
        value = if turn >> level & 1 == 0 {
            node(level as u8, &value, &sibling)
        } else {
            node(level as u8, &sibling, &value)
        };
    }
    value == *public
}
