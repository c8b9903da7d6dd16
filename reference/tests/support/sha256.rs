//! SHA-256, as hexadecimal digits.

/// The first 32 bits of the fractional part of the cube root (or square root)
/// of a small prime, by whole numbers only.
fn root_fraction(prime: u32, cube: bool) -> u32 {
    let power = |x: u128| if cube { x * x * x } else { x * x };
    let scaled = u128::from(prime) << if cube { 96 } else { 64 };
    // The largest x with power(x) <= scaled is the root times 2^32.
    let (mut low, mut high) = (0u128, 1u128 << 40);
    while high - low > 1 {
        let middle = (low + high) / 2;
        if power(middle) <= scaled {
            low = middle
        } else {
            high = middle
        }
    }
    (low & 0xffff_ffff) as u32
}

fn primes() -> impl Iterator<Item = u32> {
    (2..).filter(|&x: &u32| (2..x).all(|d| x % d != 0))
}

fn compress(state: &mut [u32; 8], block: &[u8], constants: &[u32]) {
    let mut w = [0u32; 64];
    for (i, bytes) in block.chunks(4).enumerate() {
        w[i] = u32::from_be_bytes(bytes.try_into().expect("four bytes"));
    }
    for i in 16..64 {
        let (x, y) = (w[i - 15], w[i - 2]);
        let s0 = x.rotate_right(7) ^ x.rotate_right(18) ^ (x >> 3);
        let s1 = y.rotate_right(17) ^ y.rotate_right(19) ^ (y >> 10);
        w[i] = w[i - 16]
            .wrapping_add(s0)
            .wrapping_add(w[i - 7])
            .wrapping_add(s1);
    }
    let [mut a, mut b, mut c, mut d, mut e, mut f, mut g, mut h] = *state;
    for i in 0..64 {
        let s1 = e.rotate_right(6) ^ e.rotate_right(11) ^ e.rotate_right(25);
        let choice = (e & f) ^ (!e & g);
        let t1 = h
            .wrapping_add(s1)
            .wrapping_add(choice)
            .wrapping_add(constants[i])
            .wrapping_add(w[i]);
        let s0 = a.rotate_right(2) ^ a.rotate_right(13) ^ a.rotate_right(22);
        let majority = (a & b) ^ (a & c) ^ (b & c);
        let t2 = s0.wrapping_add(majority);
        (h, g, f, e) = (g, f, e, d.wrapping_add(t1));
        (d, c, b, a) = (c, b, a, t1.wrapping_add(t2));
    }
    for (word, new) in state.iter_mut().zip([a, b, c, d, e, f, g, h]) {
        *word = word.wrapping_add(new);
    }
}

pub fn sha256(message: &[u8]) -> String {
    let constants: Vec<u32> = primes().take(64).map(|p| root_fraction(p, true)).collect();
    let initial: Vec<u32> = primes().take(8).map(|p| root_fraction(p, false)).collect();
    let mut state: [u32; 8] = initial.try_into().expect("eight words");
    let mut padded = message.to_vec();
    padded.push(0x80);
    while padded.len() % 64 != 56 {
        padded.push(0);
    }
    padded.extend((8 * message.len() as u64).to_be_bytes());
    for block in padded.chunks(64) {
        compress(&mut state, block, &constants);
    }
    state.iter().map(|word| format!("{word:08x}")).collect()
}

#[test]
fn known_digests() {
    let empty = "e3b0c44298fc1c149afbf4c8996fb92427ae41e4649b934ca495991b7852b855";
    let abc = "ba7816bf8f01cfea414140de5dae2223b00361a396177a9cb410ff61f20015ad";
    assert_eq!(sha256(b""), empty);
    assert_eq!(sha256(b"abc"), abc);
}
