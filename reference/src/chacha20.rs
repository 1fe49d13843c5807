//! ChaCha20's block function, as RFC 8439 has it in section 2.3.

use std::fmt;

/// The number of bytes of a key.
pub const KEY_BYTES: usize = 32;

/// The first four words of every state.
const CONSTANTS: [u32; 4] = [0x61707865, 0x3320646e, 0x79622d32, 0x6b206574];

/// A key, which is never shown.
#[derive(Clone)]
pub struct Key([u32; 8]);

impl Key {
    /// The key of these bytes.
    pub fn new(bytes: &[u8; KEY_BYTES]) -> Self {
        let mut words = [0; 8];
        for (word, four) in words.iter_mut().zip(bytes.chunks_exact(4)) {
            *word = u32::from_le_bytes([four[0], four[1], four[2], four[3]]);
        }
        Key(words)
    }
}

impl fmt::Debug for Key {
    fn fmt(&self, f: &mut fmt::Formatter<'_>) -> fmt::Result {
        f.write_str("Key(..)")
    }
}

/// The sixteen words of a block.
#[inline]
pub fn block(key: &Key, counter: u32, nonce: [u32; 3]) -> [u32; 16] {
    let [c0, c1, c2, c3] = CONSTANTS;
    let [k0, k1, k2, k3, k4, k5, k6, k7] = key.0;
    let [n0, n1, n2] = nonce;
    let start = [
        c0, c1, c2, c3, k0, k1, k2, k3, k4, k5, k6, k7, counter, n0, n1, n2,
    ];

    let mut state = start;
    for _ in 0..10 {
        quarter_round(&mut state, 0, 4, 8, 12);
        quarter_round(&mut state, 1, 5, 9, 13);
        quarter_round(&mut state, 2, 6, 10, 14);
        quarter_round(&mut state, 3, 7, 11, 15);
        quarter_round(&mut state, 0, 5, 10, 15);
        quarter_round(&mut state, 1, 6, 11, 12);
        quarter_round(&mut state, 2, 7, 8, 13);
        quarter_round(&mut state, 3, 4, 9, 14);
    }
    for (word, first) in state.iter_mut().zip(start) {
        *word = word.wrapping_add(first);
    }
    state
}

#[inline(always)]
fn quarter_round(state: &mut [u32; 16], a: usize, b: usize, c: usize, d: usize) {
    state[a] = state[a].wrapping_add(state[b]);
    state[d] = (state[d] ^ state[a]).rotate_left(16);
    state[c] = state[c].wrapping_add(state[d]);
    state[b] = (state[b] ^ state[c]).rotate_left(12);
    state[a] = state[a].wrapping_add(state[b]);
    state[d] = (state[d] ^ state[a]).rotate_left(8);
    state[c] = state[c].wrapping_add(state[d]);
    state[b] = (state[b] ^ state[c]).rotate_left(7);
}

#[cfg(test)]
mod tests {
    use super::*;

    /// The key whose bytes are 0, 1, 2 and so on.
    fn counting() -> Key {
        Key::new(&std::array::from_fn(|i| i as u8))
    }

    /// The key that is 0 but for one byte.
    fn zero_but(place: usize, byte: u8) -> Key {
        let mut bytes = [0; KEY_BYTES];
        bytes[place] = byte;
        Key::new(&bytes)
    }

    #[test]
    fn quarter_round_of_section_2_1_1() {
        let mut state = [0; 16];
        state[..4].copy_from_slice(&[0x11111111, 0x01020304, 0x9b8d6f43, 0x01234567]);
        quarter_round(&mut state, 0, 1, 2, 3);
        assert_eq!(state[..4], [0xea2a92f4, 0xcb1cf8ce, 0x4581472e, 0x5881c4bb]);
        assert_eq!(state[4..], [0; 12]);
    }

    #[test]
    fn quarter_round_of_section_2_2_1() {
        let mut state = [
            0x879531e0, 0xc5ecf37d, 0x516461b1, 0xc9a62f8a, //
            0x44c20ef3, 0x3390af7f, 0xd9fc690b, 0x2a5f714c, //
            0x53372767, 0xb00a5631, 0x974c541a, 0x359e9963, //
            0x5c971061, 0x3d631689, 0x2098d9d6, 0x91dbd320,
        ];
        quarter_round(&mut state, 2, 7, 8, 13);
        let after = [
            0x879531e0, 0xc5ecf37d, 0xbdb886dc, 0xc9a62f8a, //
            0x44c20ef3, 0x3390af7f, 0xd9fc690b, 0xcfacafd2, //
            0xe46bea80, 0xb00a5631, 0x974c541a, 0x359e9963, //
            0x5c971061, 0xccc07c79, 0x2098d9d6, 0x91dbd320,
        ];
        assert_eq!(state, after);
    }

    #[test]
    fn block_of_section_2_3_2() {
        let words = [
            0xe4e7f110, 0x15593bd1, 0x1fdd0f50, 0xc47120a3, //
            0xc7f4d1c7, 0x0368c033, 0x9aaa2204, 0x4e6cd4c3, //
            0x466482d2, 0x09aa9f07, 0x05d7c214, 0xa2028bd9, //
            0xd19c12b5, 0xb94e16de, 0xe883d0cb, 0x4e3c50a2,
        ];
        assert_eq!(block(&counting(), 1, [0x09000000, 0x4a000000, 0]), words);
    }

    #[test]
    fn blocks_of_appendix_a_1() {
        let words = [
            0xade0b876, 0x903df1a0, 0xe56a5d40, 0x28bd8653, //
            0xb819d2bd, 0x1aed8da0, 0xccef36a8, 0xc70d778b, //
            0x7c5941da, 0x8d485751, 0x3fe02477, 0x374ad8b8, //
            0xf4b8436a, 0x1ca11815, 0x69b687c3, 0x8665eeb2,
        ];
        assert_eq!(block(&zero_but(0, 0), 0, [0, 0, 0]), words);

        let words = [
            0xbee7079f, 0x7a385155, 0x7c97ba98, 0x0d082d73, //
            0xa0290fcb, 0x6965e348, 0x3e53c612, 0xed7aee32, //
            0x7621b729, 0x434ee69c, 0xb03371d5, 0xd539d874, //
            0x281fed31, 0x45fb0a51, 0x1f0ae1ac, 0x6f4d794b,
        ];
        assert_eq!(block(&zero_but(0, 0), 1, [0, 0, 0]), words);

        let words = [
            0x2452eb3a, 0x9249f8ec, 0x8d829d9b, 0xddd4ceb1, //
            0xe8252083, 0x60818b01, 0xf38422b8, 0x5aaa49c9, //
            0xbb00ca8e, 0xda3ba7b4, 0xc4b592d1, 0xfdf2732f, //
            0x4436274e, 0x2561b3c8, 0xebdd4aa6, 0xa0136c00,
        ];
        assert_eq!(block(&zero_but(31, 1), 1, [0, 0, 0]), words);

        let words = [
            0xfb4dd572, 0x4bc42ef1, 0xdf922636, 0x327f1394, //
            0xa78dea8f, 0x5e269039, 0xa1bebbc1, 0xcaf09aae, //
            0xa25ab213, 0x48a6b46c, 0x1b9d9bcb, 0x092c5be6, //
            0x546ca624, 0x1bec45d5, 0x87f47473, 0x96f0992e,
        ];
        assert_eq!(block(&zero_but(1, 0xff), 2, [0, 0, 0]), words);

        let words = [
            0x374dc6c2, 0x3736d58c, 0xb904e24a, 0xcd3f93ef, //
            0x88228b1a, 0x96a4dfb3, 0x5b76ab72, 0xc727ee54, //
            0x0e0e978a, 0xf3145c95, 0x1b748ea8, 0xf786c297, //
            0x99c28f5f, 0x628314e8, 0x398a19fa, 0x6ded1b53,
        ];
        assert_eq!(block(&zero_but(0, 0), 0, [0, 0, 0x02000000]), words);
    }

    #[test]
    fn key_is_not_shown() {
        assert_eq!(format!("{:?}", counting()), "Key(..)");
    }
}
