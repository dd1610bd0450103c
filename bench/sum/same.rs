//! The checksum of the crate `wb_sum` by the same algorithm in Rust, timed over the same 64 MiB of bytes.
//!
//! `main.rt.txt` is the same program in Rattle over the crate itself. It sums the bytes once untimed, and then once for
//! each line of its input. It prints the checksum of the bytes, the nanoseconds of each pass, and the checksum of all
//! passes, one behind another.

use std::io;
use std::time::Instant;

/// 64 MiB.
const BYTES: u32 = 67_108_864;

fn main() -> io::Result<()> {
    let bytes = scattered_bytes();
    let mut sum = Sum::new();
    sum.update(&bytes);
    println!("sum of one pass: {:08x}", sum.finish());
    for line in io::stdin().lines() {
        let _line = line?;
        let start = Instant::now();
        sum.update(&bytes);
        let elapsed = start.elapsed();
        println!("nanoseconds: {}", elapsed.as_nanos());
    }
    println!("sum of all passes: {:08x}", sum.finish());
    Ok(())
}

/// The highest byte of each number that a linear generator gives.
fn scattered_bytes() -> Vec<u8> {
    let mut bytes = Vec::with_capacity(BYTES as usize);
    let mut number = 1_u64;
    for _ in 0..BYTES {
        number = number
            .wrapping_mul(6_364_136_223_846_793_005)
            .wrapping_add(1_442_695_040_888_963_407);
        bytes.push((number >> 56) as u8);
    }
    bytes
}

/// The CRC-32C of the bytes so far.
pub struct Sum {
    register: u32,
}

impl Sum {
    /// The checksum of no bytes.
    pub fn new() -> Sum {
        Sum { register: !0 }
    }

    /// Takes more bytes.
    pub fn update(&mut self, bytes: &[u8]) {
        self.register = after_bytes(self.register, bytes);
    }

    /// The checksum of the bytes so far.
    pub fn finish(&self) -> u32 {
        !self.register
    }
}

/// The register after these bytes: 32 bytes a turn by four words side by side, and the last bytes one by one.
fn after_bytes(start: u32, bytes: &[u8]) -> u32 {
    if bytes.len() < 32 {
        return after_few(start, bytes);
    }
    let words = words_of(bytes);
    let mut first = words.first ^ u64::from(start);
    let mut second = words.second;
    let mut third = words.third;
    let mut fourth = words.fourth;
    let mut rest = words.rest;
    while rest.len() >= 32 {
        let next = words_of(rest);
        first = next.first ^ u64::from(after_turn(first));
        second = next.second ^ u64::from(after_turn(second));
        third = next.third ^ u64::from(after_turn(third));
        fourth = next.fourth ^ u64::from(after_turn(fourth));
        rest = next.rest;
    }
    after_few(after_four(first, second, third, fourth), rest)
}

/// The register after these bytes, one by one.
fn after_few(start: u32, bytes: &[u8]) -> u32 {
    let mut register = start;
    for byte in bytes {
        register = after_byte(register ^ u32::from(*byte));
    }
    register
}

/// Four words of a text and the bytes behind them.
#[derive(Clone, Copy)]
struct Words<'a> {
    first: u64,
    second: u64,
    third: u64,
    fourth: u64,
    rest: &'a [u8],
}

/// The first four words of a text, which has at least 32 bytes.
fn words_of(bytes: &[u8]) -> Words<'_> {
    let (first, behind_first) = first_word(bytes);
    let (second, behind_second) = first_word(behind_first);
    let (third, behind_third) = first_word(behind_second);
    let (fourth, rest) = first_word(behind_third);
    Words {
        first,
        second,
        third,
        fourth,
        rest,
    }
}

/// The first word of a text, which has at least eight bytes, and the bytes behind it.
fn first_word(bytes: &[u8]) -> (u64, &[u8]) {
    let (word, rest) = bytes.split_first_chunk::<8>().unwrap();
    (word_of(word), rest)
}

/// The number that eight bytes spell, the lowest first.
fn word_of(bytes: &[u8; 8]) -> u64 {
    u64::from_le_bytes(*bytes)
}

/// What the division leaves of four words, each with those after it behind it.
fn after_four(first: u64, second: u64, third: u64, fourth: u64) -> u32 {
    let one = after_word(first);
    let two = after_word(second ^ u64::from(one));
    let three = after_word(third ^ u64::from(two));
    after_word(fourth ^ u64::from(three))
}

/// What eight steps of the division leave.
fn after_byte(register: u32) -> u32 {
    let low = look_up(&NEAR, 0, u64::from(register % 256));
    low ^ (register / 256)
}

/// What the division leaves of a word with nothing behind it.
fn after_word(word: u64) -> u32 {
    look_up_all(&NEAR, word)
}

/// What the division leaves of a word with 24 bytes behind it.
fn after_turn(word: u64) -> u32 {
    look_up_all(&FAR, word)
}

/// What the division leaves of the eight bytes of a word, by tables.
fn look_up_all(tables: &[[u32; 256]; 8], word: u64) -> u32 {
    let a = look_up(tables, 7, word % 256);
    let b = look_up(tables, 6, (word >> 8) % 256);
    let c = look_up(tables, 5, (word >> 16) % 256);
    let d = look_up(tables, 4, (word >> 24) % 256);
    let e = look_up(tables, 3, (word >> 32) % 256);
    let f = look_up(tables, 2, (word >> 40) % 256);
    let g = look_up(tables, 1, (word >> 48) % 256);
    let h = look_up(tables, 0, word >> 56);
    a ^ b ^ c ^ d ^ e ^ f ^ g ^ h
}

/// What the division leaves of one byte, by its row of the tables.
fn look_up(tables: &[[u32; 256]; 8], row: usize, byte: u64) -> u32 {
    tables[row][byte as usize]
}

/// Row `j` is of each byte with `j` bytes behind it.
const NEAR: [[u32; 256]; 8] = tables_of(0);

/// Row `j` is of each byte with `24 + j` bytes behind it.
const FAR: [[u32; 256]; 8] = tables_of(24);

/// Eight tables: row `j` says what the division leaves of each byte with `behind + j` bytes behind it. They are made by
/// the definition of the division and not copied from the crate, so that equal checksums say something of both.
const fn tables_of(behind: u32) -> [[u32; 256]; 8] {
    let mut tables = [[0; 256]; 8];
    let mut byte = 0;
    while byte < 256 {
        let mut left = after_zeros(byte as u32, behind + 1);
        let mut row = 0;
        while row < 8 {
            tables[row][byte] = left;
            left = after_zeros(left, 1);
            row += 1;
        }
        byte += 1;
    }
    tables
}

/// What eight steps of the division for each of so many zero bytes leave of a register.
const fn after_zeros(register: u32, zeros: u32) -> u32 {
    let mut left = register;
    let mut step = 0;
    while step < 8 * zeros {
        left = (left >> 1) ^ ((left & 1) * 0x82F6_3B78);
        step += 1;
    }
    left
}
