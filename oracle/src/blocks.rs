//! Blocks of 512 bytes, their fields and their check (document 01, "The plan's blocks").

pub const BLOCK: usize = 512;
pub const CHECK: usize = 508;

pub type Block = [u8; BLOCK];

pub fn u16_at(block: &[u8], at: usize) -> u16 {
    u16::from_le_bytes(block[at..at + 2].try_into().unwrap())
}

pub fn u32_at(block: &[u8], at: usize) -> u32 {
    u32::from_le_bytes(block[at..at + 4].try_into().unwrap())
}

pub fn u64_at(block: &[u8], at: usize) -> u64 {
    u64::from_le_bytes(block[at..at + 8].try_into().unwrap())
}

pub fn f64_at(block: &[u8], at: usize) -> f64 {
    f64::from_bits(u64_at(block, at))
}

pub fn put(block: &mut [u8], at: usize, field: &[u8]) {
    block[at..at + field.len()].copy_from_slice(field);
}

pub fn put_f64(block: &mut [u8], at: usize, value: f64) {
    put(block, at, &value.to_bits().to_le_bytes());
}

/// The check of a block that stands at a place, the first place being 1.
pub fn check_of(block: &[u8], place: usize) -> u32 {
    block[..CHECK].chunks_exact(4).fold(place as u32, |sum, word| sum.wrapping_add(u32_at(word, 0)))
}

pub fn seal(block: &mut [u8], place: usize) {
    let check = check_of(block, place);
    put(block, CHECK, &check.to_le_bytes());
}

/// Makes the check of one of the blocks good; the first is block 0.
pub fn reseal(blocks: &mut [u8], k: usize) {
    seal(&mut blocks[k * BLOCK..(k + 1) * BLOCK], k + 1);
}

pub fn seal_all(blocks: &mut [u8]) {
    for k in 0..blocks.len() / BLOCK {
        reseal(blocks, k);
    }
}

/// The places of the blocks whose check is wrong.
#[inline]
pub fn wrong_checks(blocks: &[u8]) -> impl Iterator<Item = usize> {
    let wrong = |(place, block): (usize, &[u8])| (u32_at(block, CHECK) != check_of(block, place)).then_some(place);
    (1..).zip(blocks.chunks_exact(BLOCK)).filter_map(wrong)
}

#[inline]
pub fn zero(bytes: &[u8]) -> bool {
    bytes.iter().all(|byte| *byte == 0)
}

/// The 64-bit FNV-1a hash of bytes.
pub fn hash(bytes: &[u8]) -> u64 {
    bytes.iter().fold(0xcbf2_9ce4_8422_2325, |sum, byte| (sum ^ u64::from(*byte)).wrapping_mul(0x100_0000_01b3))
}
