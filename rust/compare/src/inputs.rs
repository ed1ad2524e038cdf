//! Keys, records and random numbers to make cases of.

pub const BYTES: [u8; 4] = [0x00, 0x01, 0xFE, 0xFF];
pub const NO_EDGE: u16 = 65_534;
pub const MAX: u16 = 65_535;

pub type Record = [u8; 66];

pub const ENTRY_SIZE: usize = reference::ENTRY_SIZE;
pub const MAX_ENTRIES: usize = 512;

pub type Entry = [u8; ENTRY_SIZE];

/// All keys of up to `longest` bytes over 00, 01, FE, FF: 341 for 4.
pub fn small_keys(longest: usize) -> Vec<Vec<u8>> {
    let mut keys = vec![vec![]];
    let mut from = 0;
    for _ in 0..longest {
        let until = keys.len();
        for i in from..until {
            for byte in BYTES {
                keys.push([&keys[i][..], &[byte]].concat());
            }
        }
        from = until;
    }
    keys
}

/// The record of a key.
pub fn record(key: &[u8]) -> Record {
    let mut record = field_record(key.len() as u16);
    record[2..2 + key.len()].copy_from_slice(key);
    record
}

/// A record with this length field and zeros.
pub fn field_record(field: u16) -> Record {
    let mut record = [0; 66];
    record[..2].copy_from_slice(&field.to_be_bytes());
    record
}

/// The record with a byte that isn't zero after its key.
pub fn byte_after(mut record: Record) -> Record {
    record[65] = 1;
    record
}

/// An entry with this record and a number without a zero byte.
pub fn entry(record: &Record) -> Entry {
    let mut entry = [0x91; ENTRY_SIZE];
    entry[..66].copy_from_slice(record);
    entry
}

/// Bytes that differ from place to place and hold no FF.
pub fn counted(len: usize) -> Vec<u8> {
    (0..len).map(|i| 0x20 + (i % 199) as u8).collect()
}

/// Random numbers that are the same in every run.
pub struct Xorshift(u64);

impl Xorshift {
    pub fn new(seed: u64) -> Self {
        Xorshift(seed ^ 0x9E37_79B9_7F4A_7C15)
    }

    pub fn next(&mut self) -> u64 {
        self.0 ^= self.0 << 13;
        self.0 ^= self.0 >> 7;
        self.0 ^= self.0 << 17;
        self.0
    }

    /// A number below `limit`.
    pub fn below(&mut self, limit: usize) -> usize {
        ((self.next() >> 16) % limit as u64) as usize
    }

    pub fn one_in(&mut self, n: usize) -> bool {
        self.below(n) == 0
    }
}

pub fn random_bytes(random: &mut Xorshift, len: usize) -> Vec<u8> {
    (0..len).map(|_| random.next() as u8).collect()
}

/// A key near `base`: cut, one byte one more or less, or drawn out.
pub fn near(random: &mut Xorshift, base: &[u8]) -> Vec<u8> {
    let cut = random.below(base.len() + 1);
    let mut key = base[..if random.one_in(2) { base.len() } else { cut }].to_vec();
    if !key.is_empty() && random.one_in(3) {
        let place = random.below(key.len());
        let change = if random.one_in(4) { 0xFF } else { 1 };
        key[place] = key[place].wrapping_add(change);
        key.truncate(if random.one_in(2) { place + 1 } else { 67 });
    }
    if random.one_in(4) {
        let more = random.below(4);
        key.extend(random_bytes(random, more));
    }
    key
}

/// A new prefix in place of `prefix`, so long that the longest of the keys has nearly 64 bytes,
/// or a few more; some end with FF.
pub fn new_prefix(random: &mut Xorshift, prefix: &[u8], longest: usize) -> Vec<u8> {
    let room = 64 - longest.saturating_sub(prefix.len());
    let len = match random.below(3) {
        0 => random.below(room + 1),
        _ => (room + 2).saturating_sub(random.below(6)),
    };
    let mut new = random_bytes(random, len);
    if random.one_in(4) {
        let from = random.below(len + 1);
        new[from..].fill(0xFF);
    }
    new
}
