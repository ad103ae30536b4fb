//! Records of 24 bytes, the result number, and trees before they become records.

pub const WIDTH: usize = 24;
pub const MAX_TOKENS: usize = 16_384;
pub const MAX_TEXT: usize = 65_536;
pub const MAX_RECORDS: usize = 65_536;
/// The most records of a list for which the library takes each of its smaller tables.
pub const SMALL_TABLES: [usize; 2] = [256, 4_096];

/// The most bytes of a text for which the library takes each of its smaller tables.
pub const SMALL_TEXTS: [usize; 3] = [256, 1_024, 4_096];

/// Lengths about as long as the smaller tables.
pub fn about_small_tables() -> impl Iterator<Item = usize> {
    SMALL_TABLES.into_iter().flat_map(|most| [most - 1, most, most + 1])
}

/// One record: three 64-bit words.
pub type Words = [u64; 3];

pub const LEFT: u8 = 1;
pub const RIGHT: u8 = 2;
pub const SYMBOL: u8 = 3;
pub const INTEGER: u8 = 4;
pub const AT: u8 = 5;

/// Word 0 of a token record.
pub fn token_word0(kind: u8, position: u32) -> u64 {
    (kind as u64) << 60 | position as u64
}

/// A parenthesis or `@`.
pub fn mark_token(kind: u8, position: u32) -> Words {
    [token_word0(kind, position), 0, 0]
}

pub fn symbol_token(position: u32, start: u32, length: u32) -> Words {
    [token_word0(SYMBOL, position), pair(start, length), 0]
}

pub fn integer_token(position: u32, value: i128) -> Words {
    let bits = value as u128;
    [
        token_word0(INTEGER, position),
        (bits >> 64) as u64,
        bits as u64,
    ]
}

pub fn pair(upper: u32, lower: u32) -> u64 {
    (upper as u64) << 32 | lower as u64
}

pub fn upper(word: u64) -> u32 {
    (word >> 32) as u32
}

pub fn lower(word: u64) -> u32 {
    word as u32
}

/// The bytes of records, most significant byte first.
pub fn bytes_of(records: &[Words]) -> Vec<u8> {
    let words = records.iter().flatten();
    words.flat_map(|word| word.to_be_bytes()).collect()
}

/// The whole records of the bytes.
pub fn words_of(bytes: &[u8]) -> Vec<Words> {
    let word =
        |record: &[u8], i: usize| u64::from_be_bytes(record[8 * i..8 * i + 8].try_into().unwrap());
    let records = bytes.chunks_exact(WIDTH);
    records
        .map(|record| [word(record, 0), word(record, 1), word(record, 2)])
        .collect()
}

/// A refusal's number and place.
#[derive(Clone, Copy, Debug, PartialEq, Eq)]
pub struct Refusal {
    pub number: u8,
    pub place: u32,
}

/// A complete list of records, or a refusal that does not depend on the space.
pub type Outcome = Result<Vec<Words>, Refusal>;

/// What an entry answers: the returned number and every byte of its output.
#[derive(Clone, Debug, PartialEq, Eq)]
pub struct Answer {
    pub result: u64,
    pub out: Vec<u8>,
}

pub fn pack(number: u8, count: usize, place: u32) -> u64 {
    (number as u64) << 56 | (count as u64) << 32 | place as u64
}

/// How many records fit into an output of that many bytes.
pub fn space_of(bytes: usize) -> usize {
    (bytes / WIDTH).min(MAX_RECORDS)
}

/// The answer for an output of `bytes` bytes.
pub fn answer(outcome: &Outcome, bytes: usize) -> Answer {
    let mut out = vec![0; bytes];
    let result = match outcome {
        Err(refusal) => pack(refusal.number, 0, refusal.place),
        Ok(records) if records.len() > space_of(bytes) => pack(6, 0, 0),
        Ok(records) => {
            out[..records.len() * WIDTH].copy_from_slice(&bytes_of(records));
            pack(0, records.len(), 0)
        }
    };
    Answer { result, out }
}

/// A record with its children, before it stands in a list.
#[derive(Clone, Debug, PartialEq, Eq)]
pub struct Node {
    pub kind: u8,
    pub flags: u8,
    pub position: u32,
    pub words: [u64; 2],
    pub children: Vec<Node>,
}

impl Node {
    pub fn new(kind: u8, position: u32, children: Vec<Node>) -> Node {
        Node {
            kind,
            flags: 0,
            position,
            words: [0, 0],
            children,
        }
    }

    pub fn flags(mut self, flags: u8) -> Node {
        self.flags = flags;
        self
    }

    pub fn word1(mut self, word: u64) -> Node {
        self.words[0] = word;
        self
    }

    pub fn integer(mut self, value: i128) -> Node {
        let bits = value as u128;
        self.words = [(bits >> 64) as u64, bits as u64];
        self
    }

    /// Adds the node's record and those of its children to the list.
    pub fn write(&self, list: &mut Vec<Words>) {
        let head = (self.kind as u64) << 56
            | (self.flags as u64) << 48
            | (self.children.len() as u64 & 0xFFFF) << 32
            | self.position as u64;
        list.push([head, self.words[0], self.words[1]]);
        write_all(&self.children, list);
    }
}

pub fn write_all(nodes: &[Node], list: &mut Vec<Words>) {
    for node in nodes {
        node.write(list);
    }
}

pub fn records_of(nodes: &[Node]) -> Vec<Words> {
    let mut list = Vec::new();
    write_all(nodes, &mut list);
    list
}
