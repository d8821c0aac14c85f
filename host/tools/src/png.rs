//! PNG files of 8-bit red, green and blue, compressed in one block with its own codes.

/// The file of a picture given row by row, three bytes a pixel.
pub fn file(width: usize, height: usize, pixels: &[u8]) -> Vec<u8> {
    let mut out = b"\x89PNG\r\n\x1a\n".to_vec();
    let mut header = [(width as u32).to_be_bytes(), (height as u32).to_be_bytes()].concat();
    header.extend([8, 2, 0, 0, 0]);
    chunk(&mut out, b"IHDR", &header);
    let rows = filtered(3 * width, pixels);
    let mut data = vec![0x78, 0x9C];
    data.extend(deflated(&rows));
    data.extend(adler(&rows).to_be_bytes());
    chunk(&mut out, b"IDAT", &data);
    chunk(&mut out, b"IEND", &[]);
    out
}

fn chunk(out: &mut Vec<u8>, name: &[u8; 4], data: &[u8]) {
    out.extend((data.len() as u32).to_be_bytes());
    let from = out.len();
    out.extend(name);
    out.extend(data);
    let crc = crc(&out[from..]);
    out.extend(crc.to_be_bytes());
}

fn crc(data: &[u8]) -> u32 {
    let bit = |c: u32, _| if c & 1 == 1 { c >> 1 ^ 0xEDB8_8320 } else { c >> 1 };
    !data.iter().fold(!0, |c, byte| (0..8).fold(c ^ *byte as u32, bit))
}

fn adler(data: &[u8]) -> u32 {
    let (a, b) = data.iter().fold((1, 0), |(a, b), byte| ((a + *byte as u32) % 65_521, (b + a + *byte as u32) % 65_521));
    b << 16 | a
}

/// Each row as what it differs by from its neighbours, by whichever of the five ways leaves the least.
fn filtered(row_bytes: usize, pixels: &[u8]) -> Vec<u8> {
    let mut out = vec![];
    let mut above = vec![0; row_bytes];
    for row in pixels.chunks_exact(row_bytes) {
        let way = |filter: u8| -> Vec<u8> {
            let left = |row: &[u8], i: usize| if i < 3 { 0 } else { row[i - 3] };
            (0..row_bytes).map(|i| row[i].wrapping_sub(guess(filter, left(row, i), above[i], left(&above, i)))).collect()
        };
        let size = |row: &[u8]| row.iter().map(|byte| (*byte as i8).unsigned_abs() as usize).sum::<usize>();
        let ways = (0..5).map(|filter| (filter, way(filter)));
        if let Some((filter, least)) = ways.min_by_key(|(_, row)| size(row)) {
            out.push(filter);
            out.extend(least);
        }
        above.copy_from_slice(row);
    }
    out
}

fn guess(filter: u8, left: u8, above: u8, corner: u8) -> u8 {
    let [a, b, c] = [left, above, corner].map(i32::from);
    match filter {
        0 => 0,
        1 => left,
        2 => above,
        3 => ((a + b) / 2) as u8,
        _ => {
            let [from_a, from_b, from_c] = [b - c, a - c, a + b - 2 * c].map(i32::abs);
            if from_a <= from_b && from_a <= from_c {
                left
            } else if from_b <= from_c {
                above
            } else {
                corner
            }
        }
    }
}

/// Bits, the lowest of a byte first.
#[derive(Default)]
struct Bits {
    bytes: Vec<u8>,
    held: u64,
    count: u32,
}

impl Bits {
    fn put(&mut self, bits: u32, count: u32) {
        self.held |= (bits as u64) << self.count;
        self.count += count;
        while self.count >= 8 {
            self.bytes.push(self.held as u8);
            self.held >>= 8;
            self.count -= 8;
        }
    }

    fn end(mut self) -> Vec<u8> {
        self.put(0, 7);
        self.bytes
    }
}

/// A byte, or a length and how far back to copy from.
enum Token {
    Byte(u8),
    Copy(usize, usize),
}

const LONGEST: usize = 258;
const FARTHEST: usize = 32_768;

/// The data as bytes and copies of what stood before, the longest that a few tries find.
fn tokens(data: &[u8]) -> Vec<Token> {
    let hash = |at: usize| (data[at] as usize) << 10 ^ (data[at + 1] as usize) << 5 ^ data[at + 2] as usize;
    let mut newest = vec![usize::MAX; 1 << 18];
    let mut older = vec![usize::MAX; data.len()];
    let (mut out, mut at) = (vec![], 0);
    while at < data.len() {
        let mut found = (0, 0);
        if at + 3 <= data.len() {
            let (most, mut from) = (LONGEST.min(data.len() - at), newest[hash(at)]);
            for _ in 0..64 {
                if from == usize::MAX || at - from > FARTHEST {
                    break;
                }
                let length = (0..most).take_while(|i| data[from + i] == data[at + i]).count();
                if length > found.0 {
                    found = (length, at - from);
                }
                from = older[from];
            }
        }
        let length = if found.0 >= 3 { found.0 } else { 1 };
        out.push(if length == 1 { Token::Byte(data[at]) } else { Token::Copy(found.0, found.1) });
        for seen in at..at + length {
            if seen + 3 <= data.len() {
                older[seen] = newest[hash(seen)];
                newest[hash(seen)] = seen;
            }
        }
        at += length;
    }
    out
}

/// The code of a number that is coded by ranges: its range, its place in it, and the bits of the place. The first 2 · `per` ranges have one
/// number each, and then every `per` ranges are twice as long as those before.
fn ranged(number: usize, per: usize) -> (usize, u32, u32) {
    let (mut code, mut from, mut bits) = (0, 0, 0);
    while number - from >= 1 << bits {
        from += 1 << bits;
        code += 1;
        if code >= 2 * per && code % per == 0 {
            bits += 1;
        }
    }
    (code, (number - from) as u32, bits)
}

fn length_code(length: usize) -> (usize, u32, u32) {
    if length == LONGEST {
        (285, 0, 0)
    } else {
        let (code, place, bits) = ranged(length - 3, 4);
        (257 + code, place, bits)
    }
}

/// The lengths of Huffman's codes for symbols that occur so often, none above 15.
fn code_lengths(counts: &[u32]) -> Vec<u32> {
    let mut weights: Vec<u32> = counts.to_vec();
    loop {
        // a tree is its weight and its symbols, which are one deeper each time that it is joined to another
        let mut lengths = vec![0; weights.len()];
        let mut trees: Vec<(u32, Vec<usize>)> = weights.iter().enumerate().filter(|(_, w)| **w > 0).map(|(i, w)| (*w, vec![i])).collect();
        while trees.len() > 1 {
            trees.sort_by_key(|tree| std::cmp::Reverse(tree.0));
            let last = trees.split_off(trees.len() - 2);
            let joined: Vec<usize> = last.iter().flat_map(|tree| tree.1.iter().copied()).collect();
            joined.iter().for_each(|symbol| lengths[*symbol] += 1);
            trees.push((last.iter().map(|tree| tree.0).sum(), joined));
        }
        if lengths.iter().all(|length| *length <= 15) {
            return lengths;
        }
        weights.iter_mut().for_each(|weight| *weight = weight.div_ceil(2));
    }
}

/// The codes of these lengths, shorter before longer; their bits are sent the highest first.
fn codes(lengths: &[u32]) -> Vec<(u32, u32)> {
    let mut next = 0;
    let mut codes = vec![(0, 0); lengths.len()];
    for length in 1..=15 {
        for (code, _) in codes.iter_mut().zip(lengths).filter(|(_, l)| **l == length) {
            *code = (u32::reverse_bits(next) >> (32 - length), length);
            next += 1;
        }
        next <<= 1;
    }
    codes
}

/// One block of data, with codes of its own.
fn deflated(data: &[u8]) -> Vec<u8> {
    let tokens = tokens(data);
    // each symbol's count; two of each kind at least, so that there are codes to tell apart
    let (mut symbols, mut distances) = ([0; 286], [0; 30]);
    symbols[0] = 1;
    symbols[256] = 1;
    distances[..2].fill(1);
    for token in &tokens {
        match token {
            Token::Byte(byte) => symbols[*byte as usize] += 1,
            Token::Copy(length, distance) => {
                symbols[length_code(*length).0] += 1;
                distances[ranged(distance - 1, 2).0] += 1;
            }
        }
    }
    let lengths = [code_lengths(&symbols), code_lengths(&distances)];
    let [symbols, distances] = [0, 1].map(|kind| codes(&lengths[kind]));
    let mut bits = Bits::default();
    put_lengths(&mut bits, &lengths.concat());
    for token in &tokens {
        match token {
            Token::Byte(byte) => bits.put(symbols[*byte as usize].0, symbols[*byte as usize].1),
            Token::Copy(length, distance) => {
                for ((symbol, place, more), codes) in [(length_code(*length), &symbols), (ranged(distance - 1, 2), &distances)] {
                    bits.put(codes[symbol].0, codes[symbol].1);
                    bits.put(place, more);
                }
            }
        }
    }
    bits.put(symbols[256].0, symbols[256].1);
    bits.end()
}

/// The head of the last block: its 286 symbols' and 30 distances' code lengths. They are coded themselves, 0 to 12 in four bits, and 13 to 15
/// and the three repeats, which are not used, in five.
fn put_lengths(bits: &mut Bits, lengths: &[u32]) {
    for (number, count) in [(0b101, 3), (286 - 257, 5), (30 - 1, 5), (19 - 4, 4)] {
        bits.put(number, count);
    }
    let width = |length: u32| if length < 13 { 4 } else { 5 };
    for length in [16, 17, 18, 0, 8, 7, 9, 6, 10, 5, 11, 4, 12, 3, 13, 2, 14, 1, 15] {
        bits.put(width(length), 3);
    }
    let coded = codes(&(0..19).map(width).collect::<Vec<_>>());
    for length in lengths {
        let (code, count) = coded[*length as usize];
        bits.put(code, count);
    }
}
