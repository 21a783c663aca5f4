//! SHA-256 (FIPS 180-4), for the archives that the pages name.

/// The first 32 bits of the fractional parts of the `root`-th roots of the first primes.
fn fractions<const COUNT: usize>(root: u32) -> [u32; COUNT] {
    let mut found = [0; COUNT];
    let mut at = 0;
    let mut number = 2u128;
    while at < COUNT {
        if (2..number).all(|divisor| number % divisor != 0) {
            // The largest x with x^root no larger than the prime times 2^(32 root): its root times 2^32.
            let mut x = 0u128;
            for bit in (0..40).rev() {
                let next = x | 1 << bit;
                if next.pow(root) <= number << (32 * root) {
                    x = next;
                }
            }
            found[at] = x as u32;
            at += 1;
        }
        number += 1;
    }
    found
}

/// The digest in lower-case hex.
pub fn sha256(bytes: &[u8]) -> String {
    let mut state: [u32; 8] = fractions(2);
    let constants: [u32; 64] = fractions(3);
    let mut padded = bytes.to_vec();
    padded.push(0x80);
    while padded.len() % 64 != 56 {
        padded.push(0);
    }
    padded.extend((8 * bytes.len() as u64).to_be_bytes());
    for block in padded.chunks(64) {
        let mut words = [0u32; 64];
        for (word, four) in words.iter_mut().zip(block.chunks(4)) {
            *word = u32::from_be_bytes([four[0], four[1], four[2], four[3]]);
        }
        for at in 16..64 {
            let (early, late) = (words[at - 15], words[at - 2]);
            let early = early.rotate_right(7) ^ early.rotate_right(18) ^ early >> 3;
            let late = late.rotate_right(17) ^ late.rotate_right(19) ^ late >> 10;
            words[at] = words[at - 16].wrapping_add(early).wrapping_add(words[at - 7]).wrapping_add(late);
        }
        let [mut a, mut b, mut c, mut d, mut e, mut f, mut g, mut h] = state;
        for (word, constant) in words.iter().zip(&constants) {
            let rotated = e.rotate_right(6) ^ e.rotate_right(11) ^ e.rotate_right(25);
            let chosen = e & f ^ !e & g;
            let first = h.wrapping_add(rotated).wrapping_add(chosen).wrapping_add(*constant).wrapping_add(*word);
            let rotated = a.rotate_right(2) ^ a.rotate_right(13) ^ a.rotate_right(22);
            let second = rotated.wrapping_add(a & b ^ a & c ^ b & c);
            (h, g, f, e, d, c, b, a) = (g, f, e, d.wrapping_add(first), c, b, a, first.wrapping_add(second));
        }
        for (sum, word) in state.iter_mut().zip([a, b, c, d, e, f, g, h]) {
            *sum = sum.wrapping_add(word);
        }
    }
    state.iter().map(|word| format!("{word:08x}")).collect()
}
