//! PNG files: eight bits a channel, no filter, one block of fixed codes. Rows are written as they come, and little is kept of them:
//! a run of bytes is only looked for one pixel before it and one row above it.

use std::io::{self, Write};

const LEAST_RUN: usize = 3;
const MOST_RUN: usize = 258;
/// No run stands farther before the bytes that repeat it.
const MOST_DISTANCE: usize = 32_768;
/// Packed bytes that are kept until they are written as a chunk.
const CHUNK: usize = 1 << 20;

const SIGNATURE: [u8; 8] = [0x89, b'P', b'N', b'G', b'\r', b'\n', 0x1A, b'\n'];

pub type Dot = [u8; 3];

/// A whole picture of this width, its rows from the top on.
pub fn encode(width: usize, dots: &[Dot]) -> Vec<u8> {
    let rows = dots.chunks_exact(width);
    let mut file = Vec::new();
    let written = Writer::new(&mut file, width as u32, rows.len() as u32).and_then(|mut png| {
        for row in rows {
            png.row(row)?;
        }
        png.end()
    });
    written.expect("a vector takes all that is written to it");
    file
}

/// A picture that is written row by row, from the top on.
#[derive(Debug)]
pub struct Writer<W: Write> {
    out: W,
    packer: Packer,
}

impl<W: Write> Writer<W> {
    pub fn new(mut out: W, width: u32, height: u32) -> io::Result<Writer<W>> {
        out.write_all(&SIGNATURE)?;
        let sizes = [width, height].map(u32::to_be_bytes);
        let header = [sizes.as_flattened(), &[8, 2, 0, 0, 0]].concat();
        chunk(&mut out, b"IHDR", &header)?;
        let packer = Packer::new(3 * width as usize + 1);
        Ok(Writer { out, packer })
    }

    pub fn row(&mut self, dots: &[Dot]) -> io::Result<()> {
        // Each row begins with its filter: none.
        self.packer.add(&[0]);
        self.packer.add(dots.as_flattened());
        self.packer.pack(MOST_RUN);
        if self.packer.bits.bytes.len() >= CHUNK {
            let packed = std::mem::take(&mut self.packer.bits.bytes);
            chunk(&mut self.out, b"IDAT", &packed)?;
        }
        Ok(())
    }

    pub fn end(mut self) -> io::Result<()> {
        chunk(&mut self.out, b"IDAT", &self.packer.end())?;
        chunk(&mut self.out, b"IEND", &[])?;
        self.out.flush()
    }
}

fn chunk(out: &mut impl Write, name: &[u8; 4], data: &[u8]) -> io::Result<()> {
    let body = [name, data].concat();
    out.write_all(&(data.len() as u32).to_be_bytes())?;
    out.write_all(&body)?;
    out.write_all(&check_of(&body).to_be_bytes())
}

/// The check number of a chunk: CRC-32.
fn check_of(bytes: &[u8]) -> u32 {
    let bit = |sum: u32, _| (sum >> 1) ^ (0xEDB8_8320 & (sum & 1).wrapping_neg());
    let byte = |sum: u32, byte: &u8| (0..8).fold(sum ^ u32::from(*byte), bit);
    !bytes.iter().fold(!0, byte)
}

/// Bytes as a zlib stream: a deflate block of fixed codes, then the check number Adler-32.
#[derive(Debug)]
struct Packer {
    /// Bytes of a row.
    row: usize,
    /// The bytes of a row before those that are still to be packed, and these.
    bytes: Vec<u8>,
    at: usize,
    sums: [u32; 2],
    bits: Bits,
}

impl Packer {
    fn new(row: usize) -> Packer {
        let mut bits = Bits {
            bytes: vec![0x78, 0x01],
            ..Bits::default()
        };
        // The last block, of fixed codes.
        bits.put(0b011, 3);
        Packer {
            row,
            bytes: Vec::new(),
            at: 0,
            sums: [1, 0],
            bits,
        }
    }

    fn add(&mut self, bytes: &[u8]) {
        for byte in bytes {
            self.sums[0] = (self.sums[0] + u32::from(*byte)) % 65_521;
            self.sums[1] = (self.sums[1] + self.sums[0]) % 65_521;
        }
        self.bytes.extend(bytes);
    }

    /// Packs the bytes behind which so many others stand, counting themselves.
    fn pack(&mut self, behind: usize) {
        while self.at + behind <= self.bytes.len() {
            let (length, distance) = self.longest();
            if length < LEAST_RUN {
                self.bits.symbol(self.bytes[self.at].into());
                self.at += 1;
            } else {
                self.bits.run(length as u32, distance as u32);
                self.at += length;
            }
        }
        let kept = self.at.min(self.row);
        self.bytes.drain(..self.at - kept);
        self.at = kept;
    }

    /// The longest run that stands before: its length and how far before.
    fn longest(&self) -> (usize, usize) {
        let run = |distance: usize| match self.at.checked_sub(distance) {
            Some(from) if distance <= MOST_DISTANCE => {
                let pairs = self.bytes[self.at..].iter().zip(&self.bytes[from..]);
                let pairs = pairs.take(MOST_RUN);
                pairs.take_while(|(one, other)| one == other).count()
            }
            _ => 0,
        };
        let [near, above] = [3, self.row].map(|distance| (run(distance), distance));
        near.max(above)
    }

    fn end(mut self) -> Vec<u8> {
        self.pack(1);
        self.bits.symbol(256);
        let [low, high] = self.sums;
        let mut packed = self.bits.ended();
        packed.extend((high << 16 | low).to_be_bytes());
        packed
    }
}

/// Bits, the lowest of a byte first.
#[derive(Default, Debug)]
struct Bits {
    bytes: Vec<u8>,
    last: u64,
    count: u32,
}

impl Bits {
    /// The lowest bits of a number, the lowest first.
    fn put(&mut self, number: u32, bits: u32) {
        self.last |= u64::from(number) << self.count;
        self.count += bits;
        while self.count >= 8 {
            self.bytes.push(self.last as u8);
            self.last >>= 8;
            self.count -= 8;
        }
    }

    /// A code, its highest bit first.
    fn code(&mut self, code: u32, bits: u32) {
        self.put(code.reverse_bits() >> (32 - bits), bits);
    }

    /// A byte, the end (256), or the first part of a run.
    fn symbol(&mut self, symbol: u32) {
        match symbol {
            0..144 => self.code(0x30 + symbol, 8),
            144..256 => self.code(0x190 + symbol - 144, 9),
            256..280 => self.code(symbol - 256, 7),
            _ => self.code(0xC0 + symbol - 280, 8),
        }
    }

    /// A run of bytes that stands so far before.
    fn run(&mut self, length: u32, distance: u32) {
        match length - 3 {
            255 => self.symbol(285),
            few @ 0..8 => self.symbol(257 + few),
            more => {
                let extra = more.ilog2() - 2;
                self.symbol(257 + 4 * (extra + 1) + (more >> extra & 3));
                self.put(more & ((1 << extra) - 1), extra);
            }
        }
        match distance - 1 {
            few @ 0..4 => self.code(few, 5),
            more => {
                let extra = more.ilog2() - 1;
                self.code(2 * (extra + 1) + (more >> extra & 1), 5);
                self.put(more & ((1 << extra) - 1), extra);
            }
        }
    }

    fn ended(mut self) -> Vec<u8> {
        self.put(0, 7);
        self.bytes
    }
}
