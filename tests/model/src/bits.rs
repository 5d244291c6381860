//! Keys as strings of bits. Bit 1 is the most significant.

/// The key as a string of `width` bits.
pub fn bits(key: u64, width: usize) -> Vec<bool> {
    (1..=width)
        .map(|position| key / 2u64.pow((width - position) as u32) % 2 == 1)
        .collect()
}

/// The number that a string of at most 64 bits stands for.
pub fn number(bits: &[bool]) -> u64 {
    bits.iter().fold(0, |sum, &bit| 2 * sum + u64::from(bit))
}

/// Whether the key has no more than `width` bits.
pub fn fits(key: u64, width: usize) -> bool {
    width >= 64 || key < 2u64.pow(width as u32)
}

/// The positions of the key's one-bits, in ascending order.
pub fn one_bits(key: u64, width: usize) -> Vec<usize> {
    let bits = bits(key, width);
    (1..=width).filter(|position| bits[position - 1]).collect()
}

/// The first bit where two keys differ, if they do.
pub fn first_difference(a: u64, b: u64, width: usize) -> Option<usize> {
    let (a, b) = (bits(a, width), bits(b, width));
    (1..=width).find(|position| a[position - 1] != b[position - 1])
}
