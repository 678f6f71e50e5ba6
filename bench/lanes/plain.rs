//! The same work in plain Rust, with the standard library alone: prints how many nanoseconds a tag takes, in lanes and
//! alone, and a sum over all tags. The lanes are the processor's own, by the same intrinsics as those that the other
//! program comes to; the first blocks of a group are hashed together, and of each later block the message schedule is
//! made once for all groups. Alone a tag is hashed in portable code by the formulas of the kit's `sha2`, from hashers
//! that are kept.

use std::arch::x86_64::*;
use std::time::Instant;

/// How many bytes are hashed in each case, about.
const BYTES: u64 = 400_000;

const LABEL: u8 = 2;

// ---- SHA-256 (FIPS 180-4), one text at a time

const K: [u32; 64] = [
    0x428a2f98, 0x71374491, 0xb5c0fbcf, 0xe9b5dba5, 0x3956c25b, 0x59f111f1, 0x923f82a4, 0xab1c5ed5, 0xd807aa98,
    0x12835b01, 0x243185be, 0x550c7dc3, 0x72be5d74, 0x80deb1fe, 0x9bdc06a7, 0xc19bf174, 0xe49b69c1, 0xefbe4786,
    0x0fc19dc6, 0x240ca1cc, 0x2de92c6f, 0x4a7484aa, 0x5cb0a9dc, 0x76f988da, 0x983e5152, 0xa831c66d, 0xb00327c8,
    0xbf597fc7, 0xc6e00bf3, 0xd5a79147, 0x06ca6351, 0x14292967, 0x27b70a85, 0x2e1b2138, 0x4d2c6dfc, 0x53380d13,
    0x650a7354, 0x766a0abb, 0x81c2c92e, 0x92722c85, 0xa2bfe8a1, 0xa81a664b, 0xc24b8b70, 0xc76c51a3, 0xd192e819,
    0xd6990624, 0xf40e3585, 0x106aa070, 0x19a4c116, 0x1e376c08, 0x2748774c, 0x34b0bcb5, 0x391c0cb3, 0x4ed8aa4a,
    0x5b9cca4f, 0x682e6ff3, 0x748f82ee, 0x78a5636f, 0x84c87814, 0x8cc70208, 0x90befffa, 0xa4506ceb, 0xbef9a3f7,
    0xc67178f2,
];

const START: [u32; 8] =
    [0x6a09e667, 0xbb67ae85, 0x3c6ef372, 0xa54ff53a, 0x510e527f, 0x9b05688c, 0x1f83d9ab, 0x5be0cd19];

#[inline(always)]
fn round(v: [u32; 8], k: u32, word: u32) -> [u32; 8] {
    let [a, b, c, d, e, f, g, h] = v;
    let s1 = (e ^ (e ^ e.rotate_right(14)).rotate_right(5)).rotate_right(6);
    let ch = g ^ (e & (f ^ g));
    let t1 = h.wrapping_add(s1).wrapping_add(ch).wrapping_add(k).wrapping_add(word);
    let s0 = (a ^ (a ^ a.rotate_right(9)).rotate_right(11)).rotate_right(2);
    let maj = b ^ ((a ^ b) & (b ^ c));
    [t1.wrapping_add(s0).wrapping_add(maj), a, b, c, d.wrapping_add(t1), e, f, g]
}

/// The word that takes the place of the one 16 before it.
#[inline(always)]
fn next_word(w: &mut [u32; 16], place: usize) -> u32 {
    let (early, late) = (w[(place + 1) % 16], w[(place + 14) % 16]);
    let s0 = (early ^ early.rotate_right(11)).rotate_right(7) ^ (early >> 3);
    let s1 = (late ^ late.rotate_right(2)).rotate_right(17) ^ (late >> 10);
    w[place] = w[place].wrapping_add(s0).wrapping_add(w[(place + 9) % 16]).wrapping_add(s1);
    w[place]
}

/// Sixteen rounds, written out so that each place is a constant.
#[inline(always)]
fn sixteen(mut v: [u32; 8], turn: usize, mut word: impl FnMut(usize) -> u32) -> [u32; 8] {
    macro_rules! rounds {
        ($($place:literal)*) => { $(v = round(v, K[16 * turn + $place], word($place));)* };
    }
    rounds!(0 1 2 3 4 5 6 7 8 9 10 11 12 13 14 15);
    v
}

fn words_of(block: &[u8; 64]) -> [u32; 16] {
    let mut w = [0u32; 16];
    for (word, bytes) in w.iter_mut().zip(block.chunks_exact(4)) {
        *word = u32::from_be_bytes(bytes.try_into().expect("four bytes"));
    }
    w
}

/// The words of a block stand in a ring of 16.
fn compress(state: &mut [u32; 8], block: &[u8; 64]) {
    let mut w = words_of(block);
    let mut v = sixteen(*state, 0, |place| w[place]);
    for turn in 1..4 {
        v = sixteen(v, turn, |place| next_word(&mut w, place));
    }
    for (word, more) in state.iter_mut().zip(v) {
        *word = word.wrapping_add(more);
    }
}

/// Block i of a text in two parts, which stands behind one block, with the padding.
fn block_of(head: &[u8; 5], rest: &[u8], i: usize) -> [u8; 64] {
    let len = head.len() + rest.len();
    let start = 64 * i;
    let mut block = [0; 64];
    let mut put = |piece: &[u8], at: usize| {
        let (from, to) = (at.max(start), (at + piece.len()).min(start + 64));
        if from < to {
            block[from - start..to - start].copy_from_slice(&piece[from - at..to - at]);
        }
    };
    put(head, 0);
    put(rest, head.len());
    put(&[0x80], len);
    put(&(8 * (64 + len as u64)).to_be_bytes(), 64 * ((len + 8) / 64) + 56);
    block
}

fn blocks_of(rest: &[u8]) -> usize {
    (5 + rest.len() + 8) / 64 + 1
}

fn digest_of(state: &[u32; 8]) -> [u8; 32] {
    let mut digest = [0; 32];
    for (bytes, word) in digest.chunks_exact_mut(4).zip(state) {
        bytes.copy_from_slice(&word.to_be_bytes());
    }
    digest
}

fn digest_block(digest: &[u8; 32]) -> [u8; 64] {
    let mut block = [0; 64];
    block[..32].copy_from_slice(digest);
    block[32] = 0x80;
    block[56..].copy_from_slice(&(8u64 * 96).to_be_bytes());
    block
}

// ---- four texts at a time

type Group = [__m128i; 8];

#[inline(always)]
fn splat(word: u32) -> __m128i {
    unsafe { _mm_set1_epi32(word as i32) }
}

#[inline(always)]
fn sum(a: __m128i, b: __m128i) -> __m128i {
    unsafe { _mm_add_epi32(a, b) }
}

macro_rules! rotated {
    ($x:expr, $by:literal) => {
        _mm_or_si128(_mm_srli_epi32::<$by>($x), _mm_slli_epi32::<{ 32 - $by }>($x))
    };
}

macro_rules! three {
    ($a:expr, $b:expr, $c:expr) => {
        _mm_xor_si128(_mm_xor_si128($a, $b), $c)
    };
}

#[inline(always)]
fn lanes_round(v: Group, keyed: __m128i) -> Group {
    let [a, b, c, d, e, f, g, h] = v;
    unsafe {
        let s1 = three!(rotated!(e, 6), rotated!(e, 11), rotated!(e, 25));
        let ch = _mm_xor_si128(_mm_and_si128(e, f), _mm_andnot_si128(e, g));
        let t1 = sum(sum(sum(h, s1), ch), keyed);
        let s0 = three!(rotated!(a, 2), rotated!(a, 13), rotated!(a, 22));
        let maj = three!(_mm_and_si128(a, b), _mm_and_si128(a, c), _mm_and_si128(b, c));
        [sum(t1, sum(s0, maj)), a, b, c, sum(d, t1), e, f, g]
    }
}

fn lanes_schedule(words: &[__m128i; 16], w: &mut [__m128i; 64]) {
    w[..16].copy_from_slice(words);
    for t in 16..64 {
        unsafe {
            let (early, late) = (w[t - 15], w[t - 2]);
            let s0 = three!(rotated!(early, 7), rotated!(early, 18), _mm_srli_epi32::<3>(early));
            let s1 = three!(rotated!(late, 17), rotated!(late, 19), _mm_srli_epi32::<10>(late));
            w[t] = sum(sum(s1, w[t - 7]), sum(s0, w[t - 16]));
        }
    }
    for t in 0..64 {
        w[t] = sum(splat(K[t]), w[t]);
    }
}

fn lanes_compress(state: &mut Group, keyed: &[__m128i; 64]) {
    let mut v = *state;
    for eight in keyed.chunks_exact(8) {
        v = lanes_round(v, eight[0]);
        v = lanes_round(v, eight[1]);
        v = lanes_round(v, eight[2]);
        v = lanes_round(v, eight[3]);
        v = lanes_round(v, eight[4]);
        v = lanes_round(v, eight[5]);
        v = lanes_round(v, eight[6]);
        v = lanes_round(v, eight[7]);
    }
    for (word, more) in state.iter_mut().zip(v) {
        *word = sum(*word, more);
    }
}

fn lanes_of(states: [&[u32; 8]; 4]) -> Group {
    std::array::from_fn(|i| unsafe {
        _mm_set_epi32(states[3][i] as i32, states[2][i] as i32, states[1][i] as i32, states[0][i] as i32)
    })
}

fn lane_of(group: &Group, lane: usize) -> [u32; 8] {
    std::array::from_fn(|i| unsafe {
        let mut words = [0u32; 4];
        _mm_storeu_si128(words.as_mut_ptr().cast(), group[i]);
        words[lane]
    })
}

// ---- HMAC (RFC 2104)

/// The hash values after a key's two blocks.
#[derive(Clone, Copy)]
struct Key {
    inner: [u32; 8],
    outer: [u32; 8],
}

fn key(peer: u16) -> Key {
    let mut text = [0; 64];
    text[..4].copy_from_slice(b"hsim");
    text[6..8].copy_from_slice(&peer.to_be_bytes());
    text[8] = 0x80;
    text[56..].copy_from_slice(&(8u64 * 8).to_be_bytes());
    let mut state = START;
    compress(&mut state, &text);
    let (mut inner_block, mut outer_block) = ([0x36; 64], [0x5c; 64]);
    for (i, byte) in digest_of(&state).iter().enumerate() {
        inner_block[i] ^= byte;
        outer_block[i] ^= byte;
    }
    let (mut inner, mut outer) = (START, START);
    compress(&mut inner, &inner_block);
    compress(&mut outer, &outer_block);
    Key { inner, outer }
}

fn head(to: u16) -> [u8; 5] {
    let [r0, r1] = to.to_be_bytes();
    [LABEL, 0, 0, r0, r1]
}

fn tag(keys: &[Key], to: u16, content: &[u8]) -> [u8; 32] {
    let Key { mut inner, mut outer } = keys[usize::from(to)];
    for i in 0..blocks_of(content) {
        compress(&mut inner, &block_of(&head(to), content, i));
    }
    compress(&mut outer, &digest_block(&digest_of(&inner)));
    digest_of(&outer)
}

fn begun(keys: &[Key], g: usize, content: &[u8], schedule: &mut [__m128i; 64]) -> Group {
    let peers: [usize; 4] = std::array::from_fn(|j| (4 * g + j).min(keys.len() - 1));
    let mut state = lanes_of(peers.map(|u| &keys[u].inner));
    let blocks = peers.map(|u| words_of(&block_of(&head(u as u16), content, 0)));
    let words = std::array::from_fn(|i| unsafe {
        _mm_set_epi32(blocks[3][i] as i32, blocks[2][i] as i32, blocks[1][i] as i32, blocks[0][i] as i32)
    });
    lanes_schedule(&words, schedule);
    lanes_compress(&mut state, schedule);
    state
}

fn finished(keys: &[Key], g: usize, inner: &Group, schedule: &mut [__m128i; 64]) -> Group {
    let peers: [usize; 4] = std::array::from_fn(|j| (4 * g + j).min(keys.len() - 1));
    let mut state = lanes_of(peers.map(|u| &keys[u].outer));
    let mut words = [splat(0); 16];
    words[..8].copy_from_slice(inner);
    words[8] = splat(0x8000_0000);
    words[15] = splat(768);
    lanes_schedule(&words, schedule);
    lanes_compress(&mut state, schedule);
    state
}

fn vector(keys: &[Key], content: &[u8], out: &mut Vec<u8>) {
    let mut all = [[splat(0); 8]; 8];
    let groups = &mut all[..keys.len().div_ceil(4)];
    let mut schedule = [splat(0); 64];
    for g in 0..groups.len() {
        groups[g] = begun(keys, g, content, &mut schedule);
    }
    for i in 1..blocks_of(content) {
        let words = words_of(&block_of(&[0; 5], content, i)).map(splat);
        lanes_schedule(&words, &mut schedule);
        for group in groups.iter_mut() {
            lanes_compress(group, &schedule);
        }
    }
    for g in 0..groups.len() {
        groups[g] = finished(keys, g, &groups[g], &mut schedule);
    }
    for u in 0..keys.len() {
        out.extend_from_slice(&digest_of(&lane_of(&groups[u / 4], u % 4)));
    }
}

// ---- the program

/// A number that depends on all bytes of whole tags, and on their order.
fn weight(sum: u64, bytes: &[u8]) -> u64 {
    let words = bytes.chunks_exact(8).map(|word| u64::from_be_bytes(word.try_into().expect("eight bytes")));
    words.fold(sum, |sum, word| sum.wrapping_mul(31).wrapping_add(word))
}

fn run_case(faults: u64, len: usize) {
    let n = 3 * faults + 1;
    let keys: Vec<Key> = (0..n as u16).map(key).collect();
    let content: Vec<u8> = (0..len as u64).map(|i| (7 * i + len as u64) as u8).collect();
    let rounds = (BYTES / ((len as u64 + 128) * n)).max(1);
    let tags = u128::from(rounds * n);
    let mut out = Vec::new();

    let started = Instant::now();
    let mut first = 0u64;
    for _ in 0..rounds {
        out.clear();
        vector(&keys, &content, &mut out);
        first = first.wrapping_mul(31).wrapping_add(weight(0, &out));
    }
    let lanes_time = started.elapsed().as_nanos() / tags;

    let started = Instant::now();
    let mut again = 0u64;
    for _ in 0..rounds {
        let one = (0..n as u16).fold(0, |sum, to| weight(sum, &tag(&keys, to, &content)));
        again = again.wrapping_mul(31).wrapping_add(one);
    }
    let alone_time = started.elapsed().as_nanos() / tags;
    assert_eq!(first, again, "different tags");
    println!("plain {n} tags of {len} bytes: in lanes {lanes_time} ns, alone {alone_time} ns, sum {first}");
}

fn main() {
    for faults in [1, 2, 4, 10] {
        for len in [32, 480, 1024, 22_000] {
            run_case(faults, len);
        }
    }
}
