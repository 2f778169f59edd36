//! AES-256 (FIPS 197), enciphering only, plainly.
fn double(b: u8) -> u8 {
    b << 1 ^ if b & 0x80 != 0 { 0x1b } else { 0 }
}

fn times(mut a: u8, mut b: u8) -> u8 {
    let mut product = 0;
    while b != 0 {
        if b & 1 != 0 {
            product ^= a;
        }
        a = double(a);
        b >>= 1;
    }
    product
}

/// The substitution box: the inverse in the field, then the affine map.
pub(crate) fn substitution() -> [u8; 256] {
    std::array::from_fn(|x| {
        let inverse = (0..=255).find(|y| times(x as u8, *y) == 1).unwrap_or(0);
        (0..5).fold(0x63, |s, i| s ^ inverse.rotate_left(i))
    })
}

pub(crate) struct Aes256 {
    keys: [[u8; 16]; 15],
    substitution: [u8; 256],
}

impl Aes256 {
    pub(crate) fn new(key: &[u8; 32], substitution: &[u8; 256]) -> Self {
        let mut words = [[0u8; 4]; 60];
        let mut constant = 1;
        for i in 0..60 {
            if i < 8 {
                words[i].copy_from_slice(&key[4 * i..4 * i + 4]);
                continue;
            }
            let mut word = words[i - 1];
            if i % 8 == 0 {
                word.rotate_left(1);
                word = word.map(|b| substitution[b as usize]);
                word[0] ^= constant;
                constant = double(constant);
            } else if i % 8 == 4 {
                word = word.map(|b| substitution[b as usize]);
            }
            words[i] = std::array::from_fn(|j| word[j] ^ words[i - 8][j]);
        }
        Self {
            keys: std::array::from_fn(|r| std::array::from_fn(|j| words[4 * r + j / 4][j % 4])),
            substitution: *substitution,
        }
    }

    pub(crate) fn encipher(&self, block: [u8; 16]) -> [u8; 16] {
        let add =
            |s: [u8; 16], r: usize| -> [u8; 16] { std::array::from_fn(|i| s[i] ^ self.keys[r][i]) };
        let mut state = add(block, 0);
        for round in 1..15 {
            let moved: [u8; 16] =
                std::array::from_fn(|i| self.substitution[state[(i + 4 * (i % 4)) % 16] as usize]);
            state = moved;
            if round < 14 {
                state = std::array::from_fn(|i| {
                    let c = i - i % 4;
                    let at = |k: usize| moved[c + (i + k) % 4];
                    double(at(0)) ^ double(at(1)) ^ at(1) ^ at(2) ^ at(3)
                });
            }
            state = add(state, round);
        }
        state
    }
}
