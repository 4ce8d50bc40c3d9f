//! Short runs of bytes as words, lowest byte first: two overlapping moves in place of a loop over bytes.

/// Up to eight bytes as a word.
#[inline(always)]
pub fn load_up_to_8(bytes: &[u8]) -> u64 {
    let length = bytes.len();
    if let Ok(whole) = <[u8; 8]>::try_from(bytes) {
        u64::from_le_bytes(whole)
    } else if let (Some(first), Some(last)) = (bytes.first_chunk::<4>(), bytes.last_chunk::<4>()) {
        // Bytes that both hold are the same bits twice, so the or does no harm.
        u64::from(u32::from_le_bytes(*first))
            | u64::from(u32::from_le_bytes(*last)) << (8 * (length - 4))
    } else if let (Some(first), Some(last)) = (bytes.first_chunk::<2>(), bytes.last_chunk::<2>()) {
        u64::from(u16::from_le_bytes(*first))
            | u64::from(u16::from_le_bytes(*last)) << (8 * (length - 2))
    } else {
        bytes.first().copied().map_or(0, u64::from)
    }
}

/// Up to sixteen bytes as a double word.
#[inline(always)]
pub fn load(bytes: &[u8]) -> u128 {
    if bytes.len() <= 8 {
        return u128::from(load_up_to_8(bytes));
    }
    let first = bytes
        .first_chunk::<8>()
        .map_or(0, |eight| u64::from_le_bytes(*eight));
    let last = bytes
        .last_chunk::<8>()
        .map_or(0, |eight| u64::from_le_bytes(*eight));
    // The last eight bytes, moved up past those that the first eight hold already.
    let high = last >> ((8 * (16 - bytes.len())) & 63);
    u128::from(first) | u128::from(high) << 64
}

/// Up to twenty-four bytes as three words.
#[inline(always)]
pub fn load_three(bytes: &[u8]) -> [u64; 3] {
    let Some((sixteen, rest)) = bytes.split_first_chunk::<16>() else {
        let both = load(bytes);
        return [both as u64, (both >> 64) as u64, 0];
    };
    let both = u128::from_le_bytes(*sixteen);
    let last = bytes
        .last_chunk::<8>()
        .map_or(0, |eight| u64::from_le_bytes(*eight));
    // With no byte left the last eight are moved out altogether.
    let third = last >> (4 * (8 - rest.len())) >> (4 * (8 - rest.len()));
    [both as u64, (both >> 64) as u64, third]
}

/// Stores the low bytes of a word in up to eight bytes.
#[inline(always)]
pub fn store_up_to_8(bytes: &mut [u8], word: u64) {
    let length = bytes.len();
    if let Ok(whole) = <&mut [u8; 8]>::try_from(&mut *bytes) {
        *whole = word.to_le_bytes();
    } else if length >= 4 {
        bytes[..4].copy_from_slice(&(word as u32).to_le_bytes());
        let last = (word >> (8 * (length - 4))) as u32;
        bytes[length - 4..].copy_from_slice(&last.to_le_bytes());
    } else if length >= 2 {
        bytes[..2].copy_from_slice(&(word as u16).to_le_bytes());
        let last = (word >> (8 * (length - 2))) as u16;
        bytes[length - 2..].copy_from_slice(&last.to_le_bytes());
    } else if length == 1 {
        bytes[0] = word as u8;
    }
}

/// Stores the low bytes of a double word in up to sixteen bytes.
#[inline(always)]
pub fn store(bytes: &mut [u8], word: u128) {
    let length = bytes.len();
    if length <= 8 {
        store_up_to_8(bytes, word as u64);
    } else {
        bytes[..8].copy_from_slice(&(word as u64).to_le_bytes());
        let last = (word >> (8 * (length - 8))) as u64;
        bytes[length - 8..].copy_from_slice(&last.to_le_bytes());
    }
}

/// Stores the low bytes of three words in up to twenty-four bytes.
#[inline(always)]
pub fn store_three(bytes: &mut [u8], [first, second, third]: [u64; 3]) {
    let length = bytes.len();
    if length <= 16 {
        store(bytes, u128::from(first) | u128::from(second) << 64);
    } else {
        bytes[..8].copy_from_slice(&first.to_le_bytes());
        bytes[8..16].copy_from_slice(&second.to_le_bytes());
        let both = u128::from(second) | u128::from(third) << 64;
        let last = (both >> (8 * (length - 16))) as u64;
        bytes[length - 8..].copy_from_slice(&last.to_le_bytes());
    }
}

/// Copies up to forty-eight bytes to as many.
#[inline(always)]
pub fn copy(from: &[u8], to: &mut [u8]) {
    let length = from.len();
    if let (Some(first), Some(last)) = (from.first_chunk::<16>(), from.last_chunk::<16>()) {
        if length > 32 {
            to[16..32].copy_from_slice(&from[16..32]);
        }
        to[..16].copy_from_slice(first);
        to[length - 16..].copy_from_slice(last);
    } else {
        store(to, load(from));
    }
}

#[cfg(test)]
mod tests {
    use super::{copy, load, load_three, store, store_three};

    #[test]
    fn three_words_are_loaded_stored_and_copied() {
        let words = [
            0x8796_a5b4_c3d2_e1f0,
            0x0f1e_2d3c_4b5a_6978,
            0x1234_5678_9abc_def1,
        ];
        let all = words.map(u64::to_le_bytes).concat();
        for length in 0..=24 {
            let mut kept = all.clone();
            kept[length..].fill(0);
            let loaded = load_three(&all[..length]);
            assert_eq!(
                loaded.map(u64::to_le_bytes).concat(),
                kept,
                "{length} bytes"
            );
            let mut stored = vec![0; length];
            store_three(&mut stored, words);
            assert_eq!(stored, all[..length], "{length} bytes");
        }
        let twice = all.repeat(2);
        for length in 0..=48 {
            let mut copied = vec![0; length];
            copy(&twice[..length], &mut copied);
            assert_eq!(copied, twice[..length], "{length} bytes");
        }
    }

    #[test]
    fn every_length_is_loaded_and_stored() {
        let word = 0x0f1e_2d3c_4b5a_6978_8796_a5b4_c3d2_e1f0_u128;
        for length in 0..=16 {
            let bytes = &word.to_le_bytes()[..length];
            let kept = if length == 16 {
                word
            } else {
                word & ((1 << (8 * length)) - 1)
            };
            assert_eq!(load(bytes), kept, "{length} bytes");
            let mut stored = vec![0; length];
            store(&mut stored, word);
            assert_eq!(stored, bytes, "{length} bytes");
        }
    }
}
