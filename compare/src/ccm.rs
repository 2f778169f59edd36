//! CCM (RFC 3610, RFC 5116) with a nonce of 12 bytes, a tag of 16 and no associated data, plainly.
use crate::aes::Aes256;

fn block(first: u8, nonce: &[u8; 12], last: u64) -> [u8; 16] {
    let mut block = [0; 16];
    block[0] = first;
    block[1..13].copy_from_slice(nonce);
    block[13..].copy_from_slice(&last.to_be_bytes()[5..]);
    block
}

fn masked(cipher: &Aes256, nonce: &[u8; 12], text: &[u8]) -> Vec<u8> {
    let blocks = text.chunks(16).zip(1..);
    blocks
        .flat_map(|(part, i)| {
            let stream = cipher.encipher(block(2, nonce, i));
            part.iter()
                .zip(stream)
                .map(|(a, b)| a ^ b)
                .collect::<Vec<u8>>()
        })
        .collect()
}

fn tag(cipher: &Aes256, nonce: &[u8; 12], text: &[u8]) -> [u8; 16] {
    let mut chain = cipher.encipher(block(8 * 7 + 2, nonce, text.len() as u64));
    for part in text.chunks(16) {
        for (c, b) in chain.iter_mut().zip(part) {
            *c ^= b;
        }
        chain = cipher.encipher(chain);
    }
    let stream = cipher.encipher(block(2, nonce, 0));
    std::array::from_fn(|i| chain[i] ^ stream[i])
}

pub(crate) fn seal(cipher: &Aes256, nonce: &[u8; 12], text: &[u8]) -> Vec<u8> {
    let mut sealed = masked(cipher, nonce, text);
    sealed.extend(tag(cipher, nonce, text));
    sealed
}

pub(crate) fn open(cipher: &Aes256, nonce: &[u8; 12], sealed: &[u8]) -> Option<Vec<u8>> {
    let (front, end) = sealed.split_at_checked(sealed.len().checked_sub(16)?)?;
    let text = masked(cipher, nonce, front);
    (tag(cipher, nonce, &text) == end).then_some(text)
}
