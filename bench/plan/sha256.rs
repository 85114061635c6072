// The digest by which a saved run names its scenario: SHA-256, in plain Rust.
const ROUNDS: [u32; 64] = [
    0x428a2f98, 0x71374491, 0xb5c0fbcf, 0xe9b5dba5, 0x3956c25b, 0x59f111f1, 0x923f82a4, 0xab1c5ed5,
    0xd807aa98, 0x12835b01, 0x243185be, 0x550c7dc3, 0x72be5d74, 0x80deb1fe, 0x9bdc06a7, 0xc19bf174,
    0xe49b69c1, 0xefbe4786, 0x0fc19dc6, 0x240ca1cc, 0x2de92c6f, 0x4a7484aa, 0x5cb0a9dc, 0x76f988da,
    0x983e5152, 0xa831c66d, 0xb00327c8, 0xbf597fc7, 0xc6e00bf3, 0xd5a79147, 0x06ca6351, 0x14292967,
    0x27b70a85, 0x2e1b2138, 0x4d2c6dfc, 0x53380d13, 0x650a7354, 0x766a0abb, 0x81c2c92e, 0x92722c85,
    0xa2bfe8a1, 0xa81a664b, 0xc24b8b70, 0xc76c51a3, 0xd192e819, 0xd6990624, 0xf40e3585, 0x106aa070,
    0x19a4c116, 0x1e376c08, 0x2748774c, 0x34b0bcb5, 0x391c0cb3, 0x4ed8aa4a, 0x5b9cca4f, 0x682e6ff3,
    0x748f82ee, 0x78a5636f, 0x84c87814, 0x8cc70208, 0x90befffa, 0xa4506ceb, 0xbef9a3f7, 0xc67178f2,
];

// One round, after which the names of the eight words stand one further on.
macro_rules! round {
    ($a:ident $b:ident $c:ident $d:ident $e:ident $f:ident $g:ident $h:ident, $addend:expr) => {
        // The rotations by 6, 11 and 25, and by 2, 13 and 22, each on what the one before has left.
        let mixed = ($e ^ ($e ^ $e.rotate_right(14)).rotate_right(5)).rotate_right(6);
        let chosen = $g ^ $e & ($f ^ $g);
        $h = $h.wrapping_add($addend).wrapping_add(mixed).wrapping_add(chosen);
        $d = $d.wrapping_add($h);
        let mixed = ($a ^ ($a ^ $a.rotate_right(9)).rotate_right(11)).rotate_right(2);
        $h = $h.wrapping_add(mixed).wrapping_add($b ^ ($a ^ $b) & ($b ^ $c));
    };
}

fn compress(state: &mut [u32; 8], block: &[u8; 64]) {
    let mut words = [0u32; 64];
    for (word, bytes) in words.iter_mut().zip(block.as_chunks::<4>().0) {
        *word = u32::from_be_bytes(*bytes);
    }
    for k in 16..64 {
        let (low, high) = (words[k - 15], words[k - 2]);
        let low = low.rotate_right(7) ^ low.rotate_right(18) ^ low >> 3;
        let high = high.rotate_right(17) ^ high.rotate_right(19) ^ high >> 10;
        words[k] = words[k - 16].wrapping_add(low).wrapping_add(words[k - 7]).wrapping_add(high);
    }
    let [mut a, mut b, mut c, mut d, mut e, mut f, mut g, mut h] = *state;
    for k in (0..64).step_by(8) {
        let addend = |i: usize| ROUNDS[k + i].wrapping_add(words[k + i]);
        round!(a b c d e f g h, addend(0));
        round!(h a b c d e f g, addend(1));
        round!(g h a b c d e f, addend(2));
        round!(f g h a b c d e, addend(3));
        round!(e f g h a b c d, addend(4));
        round!(d e f g h a b c, addend(5));
        round!(c d e f g h a b, addend(6));
        round!(b c d e f g h a, addend(7));
    }
    for (kept, new) in state.iter_mut().zip([a, b, c, d, e, f, g, h]) {
        *kept = kept.wrapping_add(new);
    }
}

#[inline(never)]
pub fn sha256(bytes: &[u8]) -> [u8; 32] {
    let mut state = [
        0x6a09e667, 0xbb67ae85, 0x3c6ef372, 0xa54ff53a, 0x510e527f, 0x9b05688c, 0x1f83d9ab, 0x5be0cd19,
    ];
    let (blocks, rest) = bytes.as_chunks::<64>();
    for block in blocks {
        compress(&mut state, block);
    }
    // The rest, a bit that is set, zeros, and the number of bits: one block or two.
    let mut last = [0u8; 128];
    last[..rest.len()].copy_from_slice(rest);
    last[rest.len()] = 0x80;
    let end = if rest.len() < 56 { 64 } else { 128 };
    last[end - 8..end].copy_from_slice(&(8 * bytes.len() as u64).to_be_bytes());
    for block in last[..end].as_chunks::<64>().0 {
        compress(&mut state, block);
    }
    let mut digest = [0; 32];
    for (four, word) in digest.chunks_exact_mut(4).zip(state) {
        four.copy_from_slice(&word.to_be_bytes());
    }
    digest
}
