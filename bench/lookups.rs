//! The plain program that trie_bench is compared with: the same input, the same tests of each
//! record, and the standard library's HashMap from digest to text. Nothing in it is proved.

use std::collections::HashMap;
use std::io::BufRead;

type Digest = [u8; 32];

struct Store {
    texts: HashMap<Digest, Vec<u8>>,
    loads: u64,
}

impl Store {
    fn load(&mut self, digest: &Digest) -> Option<&[u8]> {
        self.loads += 1;
        self.texts.get(digest).map(Vec::as_slice)
    }
}

struct Reader<'a>(&'a [u8]);

impl<'a> Reader<'a> {
    fn take(&mut self, n: usize) -> Option<&'a [u8]> {
        if n > self.0.len() {
            return None;
        }
        let (prefix, rest) = self.0.split_at(n);
        self.0 = rest;
        Some(prefix)
    }

    fn number(&mut self, bytes: usize) -> Option<u64> {
        let digits = self.take(bytes)?;
        Some(digits.iter().rev().fold(0, |n, byte| n << 8 | *byte as u64))
    }

    fn digest(&mut self) -> Option<Digest> {
        self.take(32)?.try_into().ok()
    }
}

/// A packed path behind its first byte, and whether it begins with half a byte more.
struct Path<'a> {
    half: Option<u8>,
    bytes: &'a [u8],
}

impl Path<'_> {
    fn len(&self) -> usize {
        self.half.is_some() as usize + 2 * self.bytes.len()
    }

    fn at(&self, i: usize) -> u8 {
        match self.half {
            Some(half) if i == 0 => half,
            Some(_) => nibble(self.bytes, i - 1),
            None => nibble(self.bytes, i),
        }
    }

    /// How many nibbles it shares with a key from a depth on.
    fn common(&self, key: &[u8], depth: usize) -> usize {
        let most = self.len().min(2 * key.len() - depth);
        (0..most)
            .find(|&i| self.at(i) != nibble(key, depth + i))
            .unwrap_or(most)
    }
}

fn nibble(bytes: &[u8], i: usize) -> u8 {
    bytes[i / 2] >> (4 * (1 - i % 2)) & 15
}

struct Value {
    length: u64,
    digest: Digest,
}

enum Node<'a> {
    Leaf { path: Path<'a>, value: Value },
    Branch { value: Option<Value>, bitmap: u16, kids: &'a [u8] },
    Extension { path: Path<'a>, child: Digest },
}

fn read_path<'a>(reader: &mut Reader<'a>, leaf: bool) -> Option<Path<'a>> {
    let size = reader.number(4)? as usize;
    let packed = reader.take(size)?;
    let (&first, bytes) = packed.split_first()?;
    let odd = first & 0x10 != 0;
    if first >> 6 != 0 || (first & 0x20 != 0) != leaf || (!odd && first & 15 != 0) {
        return None;
    }
    let half = odd.then_some(first & 15);
    Some(Path { half, bytes })
}

fn read_value(reader: &mut Reader<'_>) -> Option<Value> {
    let length = reader.number(4)?;
    let digest = reader.digest()?;
    Some(Value { length, digest })
}

fn read_node(text: &[u8]) -> Option<Node<'_>> {
    let mut reader = Reader(text);
    let node = match reader.number(1)? {
        0 => Node::Leaf {
            path: read_path(&mut reader, true)?,
            value: read_value(&mut reader)?,
        },
        kind @ (1 | 2) => {
            let value = if kind == 2 { Some(read_value(&mut reader)?) } else { None };
            let bitmap = reader.number(2)? as u16;
            let kids = reader.take(32 * bitmap.count_ones() as usize)?;
            Node::Branch { value, bitmap, kids }
        }
        3 => Node::Extension {
            path: read_path(&mut reader, false)?,
            child: reader.digest()?,
        },
        _ => return None,
    };
    reader.number(8)?;
    reader.0.is_empty().then_some(node)
}

fn fits(node: &Node<'_>, depth: usize, below_extension: bool) -> bool {
    match node {
        Node::Leaf { path, value } => {
            let end = depth + path.len();
            end % 2 == 0 && end <= 4228 && !below_extension && value.length <= 4194304
        }
        Node::Branch { value, bitmap, .. } => {
            let short = value.as_ref().is_none_or(|value| value.length <= 4194304);
            let children = bitmap.count_ones() + value.is_some() as u32;
            depth < 4228 && (value.is_none() || depth % 2 == 0) && short && children >= 2
        }
        Node::Extension { path, .. } => {
            path.len() > 0 && depth + path.len() < 4228 && !below_extension
        }
    }
}

/// The value of a key, if there is one. A text that is missing or bad ends the program.
fn get<'s>(store: &'s mut Store, root: &Digest, key: &[u8]) -> Option<&'s [u8]> {
    let (mut digest, mut depth, mut below_extension) = (*root, 0, false);
    if digest == [0; 32] {
        return None;
    }
    let value = loop {
        let node = read_node(store.load(&digest).expect("missing")).expect("bad");
        assert!(fits(&node, depth, below_extension), "bad");
        match node {
            Node::Leaf { path, value } => {
                let shared = path.common(key, depth);
                if shared < path.len() || depth + shared < 2 * key.len() {
                    return None;
                }
                break value;
            }
            Node::Branch { value, .. } if depth == 2 * key.len() => break value?,
            Node::Branch { bitmap, kids, .. } => {
                let bit = 1 << nibble(key, depth);
                if bitmap & bit == 0 {
                    return None;
                }
                let before = 32 * (bitmap & (bit - 1)).count_ones() as usize;
                digest = kids[before..before + 32].try_into().unwrap();
                (depth, below_extension) = (depth + 1, false);
            }
            Node::Extension { path, child } => {
                if path.common(key, depth) < path.len() {
                    return None;
                }
                (digest, depth, below_extension) = (child, depth + path.len(), true);
            }
        }
    };
    let text = store.load(&value.digest).expect("missing");
    assert!(text.len() as u64 == value.length, "bad");
    Some(text)
}

fn main() {
    let mut store = Store { texts: HashMap::new(), loads: 0 };
    let sha256 = Sha256::new();
    let (mut root, mut found) = ([0; 32], 0);
    for line in std::io::stdin().lock().split(b'\n') {
        let line = line.expect("input");
        let space = line.iter().position(|byte| *byte == b' ').expect("line");
        let bytes = decode(&line[space + 1..]);
        match &line[..space] {
            b"text" => {
                store.texts.insert(sha256.digest(&bytes), bytes);
            }
            b"root" => root = bytes.try_into().expect("root"),
            b"get" => found += get(&mut store, &root, &bytes).is_some() as u64,
            b"key" => {}
            _ => panic!("line"),
        }
    }
    println!("found {found} loads {}", store.loads);
}

fn decode(digits: &[u8]) -> Vec<u8> {
    let digit = |d: u8| (d as char).to_digit(16).expect("digit") as u8;
    digits.chunks(2).map(|pair| digit(pair[0]) << 4 | digit(pair[1])).collect()
}

/// SHA-256 by FIPS 180-4. Its constants are the first 32 bits behind the point of the square roots of
/// the first 8 primes and of the cube roots of the first 64.
struct Sha256 {
    start: Vec<u32>,
    constants: Vec<u32>,
}

impl Sha256 {
    fn new() -> Sha256 {
        let primes: Vec<u128> = (2..312).filter(|n| (2..*n).all(|m| n % m > 0)).collect();
        Sha256 {
            start: primes[..8].iter().map(|p| root(p << 64, 2)).collect(),
            constants: primes.iter().map(|p| root(p << 96, 3)).collect(),
        }
    }

    fn digest(&self, text: &[u8]) -> Digest {
        let mut padded = text.to_vec();
        padded.push(0x80);
        padded.resize((text.len() + 9).next_multiple_of(64) - 8, 0);
        padded.extend((8 * text.len() as u64).to_be_bytes());
        let mut state = self.start.clone();
        for block in padded.chunks(64) {
            self.compress(&mut state, block);
        }
        let bytes: Vec<u8> = state.iter().flat_map(|word| word.to_be_bytes()).collect();
        bytes.try_into().unwrap()
    }

    fn compress(&self, state: &mut [u32], block: &[u8]) {
        let mut w = [0u32; 64];
        for i in 0..64 {
            w[i] = if i < 16 {
                u32::from_be_bytes(block[4 * i..4 * i + 4].try_into().unwrap())
            } else {
                let (x, y) = (w[i - 15], w[i - 2]);
                let low = x.rotate_right(7) ^ x.rotate_right(18) ^ x >> 3;
                let high = y.rotate_right(17) ^ y.rotate_right(19) ^ y >> 10;
                w[i - 16].wrapping_add(low).wrapping_add(w[i - 7]).wrapping_add(high)
            };
        }
        let [mut a, mut b, mut c, mut d, mut e, mut f, mut g, mut h]: [u32; 8] =
            (&*state).try_into().unwrap();
        for i in 0..64 {
            let high = e.rotate_right(6) ^ e.rotate_right(11) ^ e.rotate_right(25);
            let one = h.wrapping_add(high).wrapping_add(e & f ^ !e & g);
            let one = one.wrapping_add(self.constants[i]).wrapping_add(w[i]);
            let low = a.rotate_right(2) ^ a.rotate_right(13) ^ a.rotate_right(22);
            let two = low.wrapping_add(a & b ^ a & c ^ b & c);
            (h, g, f, e) = (g, f, e, d.wrapping_add(one));
            (d, c, b, a) = (c, b, a, one.wrapping_add(two));
        }
        for (word, more) in state.iter_mut().zip([a, b, c, d, e, f, g, h]) {
            *word = word.wrapping_add(more);
        }
    }
}

/// The low 32 bits of a root's whole part.
fn root(n: u128, power: u32) -> u32 {
    let (mut low, mut high) = (0u128, 1 << 40);
    while high - low > 1 {
        let middle = (low + high) / 2;
        if middle.pow(power) <= n {
            low = middle;
        } else {
            high = middle;
        }
    }
    low as u32
}
