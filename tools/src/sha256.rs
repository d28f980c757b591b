//! SHA-256 in base 64, by which a page names the script and the style that it allows.

pub fn base64(bytes: &[u8]) -> String {
    let digest: Vec<u8> = digest(bytes)
        .iter()
        .flat_map(|word| word.to_be_bytes())
        .collect();
    const DIGITS: &[u8; 64] = b"ABCDEFGHIJKLMNOPQRSTUVWXYZabcdefghijklmnopqrstuvwxyz0123456789+/";
    let mut text = String::new();
    for three in digest.chunks(3) {
        let number = (0..3).fold(0, |number, at| {
            number << 8 | u32::from(three.get(at).copied().unwrap_or(0))
        });
        for place in 0..4 {
            let digit = DIGITS[(number >> (18 - 6 * place) & 63) as usize];
            text.push(if place > three.len() {
                '='
            } else {
                digit as char
            });
        }
    }
    text
}

/// FIPS 180-4.
fn digest(bytes: &[u8]) -> [u32; 8] {
    let (mut hash, constants) = (roots::<8>(f64::sqrt), roots::<64>(f64::cbrt));
    let mut padded = bytes.to_vec();
    padded.push(0x80);
    while padded.len() % 64 != 56 {
        padded.push(0);
    }
    padded.extend((bytes.len() as u64 * 8).to_be_bytes());
    for block in padded.chunks(64) {
        let words = schedule(block).into_iter().zip(constants);
        let state = words.fold(hash, |state, (word, constant)| {
            round(state, word.wrapping_add(constant))
        });
        for (sum, word) in hash.iter_mut().zip(state) {
            *sum = sum.wrapping_add(word);
        }
    }
    hash
}

/// The 64 words that a block of 64 bytes gives.
fn schedule(block: &[u8]) -> [u32; 64] {
    let mut words = [0_u32; 64];
    for (word, four) in words.iter_mut().zip(block.chunks(4)) {
        *word = u32::from_be_bytes(four.try_into().expect("4 bytes"));
    }
    for at in 16..64 {
        let (two, fifteen) = (words[at - 2], words[at - 15]);
        let s0 = fifteen.rotate_right(7) ^ fifteen.rotate_right(18) ^ fifteen >> 3;
        let s1 = two.rotate_right(17) ^ two.rotate_right(19) ^ two >> 10;
        let sum = words[at - 16].wrapping_add(s0);
        words[at] = sum.wrapping_add(words[at - 7]).wrapping_add(s1);
    }
    words
}

/// One step, with a word and its constant added up.
fn round([a, b, c, d, e, f, g, h]: [u32; 8], word: u32) -> [u32; 8] {
    let s1 = e.rotate_right(6) ^ e.rotate_right(11) ^ e.rotate_right(25);
    let choice = e & f ^ !e & g;
    let first = h.wrapping_add(s1).wrapping_add(choice).wrapping_add(word);
    let s0 = a.rotate_right(2) ^ a.rotate_right(13) ^ a.rotate_right(22);
    let second = s0.wrapping_add(a & b ^ a & c ^ b & c);
    let (top, middle) = (first.wrapping_add(second), d.wrapping_add(first));
    [top, a, b, c, middle, e, f, g]
}

/// The first 32 bits of the fractions of the roots of the first primes.
fn roots<const N: usize>(root: fn(f64) -> f64) -> [u32; N] {
    let is_prime = |number: &u32| (2..*number).all(|divisor| number % divisor != 0);
    let mut primes = (2..).filter(is_prime);
    std::array::from_fn(|_| {
        let prime = f64::from(primes.next().expect("there is no last one"));
        (root(prime).fract() * 4_294_967_296.0) as u32
    })
}

#[cfg(test)]
mod tests {
    use super::*;

    /// The examples of FIPS 180-4, and texts about the end of a block.
    #[test]
    fn known() {
        assert_eq!(
            base64(b"abc"),
            "ungWv48Bz+pBQUDeXa4iI7ADYaOWF3qctBD/YfIAFa0="
        );
        assert_eq!(base64(b""), "47DEQpj8HBSa+/TImW+5JCeuQeRkm5NMpJWZG3hSuFU=");
        let two = b"abcdbcdecdefdefgefghfghighijhijkijkljklmklmnlmnomnopnopq";
        assert_eq!(base64(two), "JI1qYdIGOLjlwCaTDD5gOaM85Flk/yFn9uzt1BnbBsE=");
        assert_eq!(
            base64(&[b'a'; 55]),
            "n0OQ+NMMLdkuyfCVtl4rmumwqSWlJY4kHJ8ekQ9zQxg="
        );
        assert_eq!(
            base64(&[b'a'; 56]),
            "s1Q5pKxvCUi21vnjxq8PX1kM4g8b3nCQ73lwaG7Gc4o="
        );
        assert_eq!(
            base64(&[b'a'; 64]),
            "/+BU/nrgy23GXDr5th1SCfQ5hR20PQulmXM33xVGaOs="
        );
    }
}
