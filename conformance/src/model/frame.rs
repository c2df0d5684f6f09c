//! Frames: reading with refusals 1 to 5, 7, 14, 15 and 8, and writing.

use super::{Areas, Part, Refusal, Settings};

/// Octets of the headers that we write, and the fewest of one that we read.
pub const HEADER: usize = 64;
/// The most octets that may stand before the data.
pub const LONGEST_HEADER: usize = 96;
/// The most octets of a frame.
pub const LONGEST: usize = LONGEST_HEADER + super::BLOCK;

/// First octets of the fields in JEM 1479, clause 10.1.
pub mod at {
    pub const H_TYPE: usize = 0;
    pub const TFL: usize = 4;
    pub const SNA: usize = 11;
    pub const DNA: usize = 15;
    pub const TCD: usize = 40;
    pub const C_AD1: usize = 44;
    pub const C_SZ1: usize = 46;
    pub const C_AD2: usize = 48;
    pub const C_SZ2: usize = 50;
    pub const P_TYPE: usize = 54;
    pub const CBN: usize = 56;
    pub const TBN: usize = 57;
    pub const BSIZE: usize = 58;
    pub const TW: usize = 61;
}

pub const MARK: [u8; 4] = *b"FACN";
const PROTOCOL: u8 = 0x80;
/// The destination that stands for all.
pub const ALL: u8 = 255;
/// BSIZE of a request and a trigger (Table 27).
const FIXED_SIZE: u16 = 0x60;

/// Transaction codes.
#[derive(Clone, Copy, Debug, PartialEq, Eq)]
#[repr(u16)]
pub enum Code {
    Token = 65000,
    Cyclic = 65001,
    Request = 65002,
    Trigger = 65012,
}

impl Code {
    fn of(number: u16) -> Result<Code, Refusal> {
        match number {
            65000 => Ok(Code::Token),
            65001 => Ok(Code::Cyclic),
            65002 => Ok(Code::Request),
            65012 => Ok(Code::Trigger),
            _ => Err(Refusal::Code),
        }
    }
}

#[derive(Clone, Copy, Debug, PartialEq, Eq)]
pub struct Header {
    pub code: Code,
    pub source: u8,
    pub destination: u8,
    pub areas: Areas,
    pub watch: u8,
    pub block: u8,
    pub blocks: u8,
    pub size: u16,
}

pub fn is_station(number: u8) -> bool {
    (1..=254).contains(&number)
}

fn word(header: &[u8; HEADER], at: usize) -> u16 {
    u16::from_be_bytes([header[at], header[at + 1]])
}

impl Header {
    /// Refusals 1 to 5.
    pub fn read(octets: &[u8]) -> Result<Header, Refusal> {
        let header: &[u8; HEADER] = octets.first_chunk().ok_or(Refusal::Cut)?;
        if octets.len() > LONGEST {
            return Err(Refusal::Cut);
        }
        if header[at::H_TYPE..at::TFL] != MARK {
            return Err(Refusal::Mark);
        }
        let length = [word(header, at::TFL), word(header, at::TFL + 2)];
        if length != [0, octets.len() as u16] {
            return Err(Refusal::Length);
        }
        let code = Code::of(word(header, at::TCD))?;
        let read = Header::fields(header, code);
        if !is_station(read.source) || code == Code::Token && !is_station(read.destination) {
            return Err(Refusal::Address);
        }
        Ok(read)
    }

    fn fields(header: &[u8; HEADER], code: Code) -> Header {
        let part = |address, size| Part::new(word(header, address), word(header, size));
        Header {
            code,
            source: header[at::SNA],
            destination: header[at::DNA],
            areas: Areas::new(part(at::C_AD1, at::C_SZ1), part(at::C_AD2, at::C_SZ2)),
            watch: header[at::TW],
            block: header[at::CBN],
            blocks: header[at::TBN],
            size: word(header, at::BSIZE),
        }
    }

    /// A frame that passes both parts of the reading.
    pub fn of(octets: &[u8]) -> Option<Header> {
        let header = Header::read(octets).ok()?;
        header.data(octets).ok()?;
        Some(header)
    }

    pub fn has_token(&self) -> bool {
        self.code == Code::Token
    }

    pub fn is_cyclic(&self) -> bool {
        matches!(self.code, Code::Token | Code::Cyclic)
    }

    /// Refusals 7, 14, 15 and 8, between which and `read` the station asks for 6. Gives the data,
    /// of a request and a trigger none.
    pub fn data<'a>(&self, octets: &'a [u8]) -> Result<&'a [u8], Refusal> {
        if self.code != Code::Trigger && !self.areas.fit() {
            return Err(Refusal::Area);
        }
        if !self.is_cyclic() {
            return Ok(&[]);
        }
        if self.blocks != self.areas.blocks() {
            return Err(Refusal::Total);
        }
        if !(1..=self.blocks).contains(&self.block) {
            return Err(Refusal::Number);
        }
        let size = usize::from(self.size);
        if size != self.areas.block(self.block).len() {
            return Err(Refusal::Block);
        }
        match octets.len().checked_sub(size) {
            Some(before @ HEADER..=LONGEST_HEADER) => Ok(&octets[before..]),
            _ => Err(Refusal::Block),
        }
    }

    /// Our trigger carries no areas and no watch time.
    pub fn trigger(number: u8) -> Header {
        Header {
            code: Code::Trigger,
            source: number,
            destination: ALL,
            areas: Areas::default(),
            watch: 0,
            block: 0,
            blocks: 0,
            size: FIXED_SIZE,
        }
    }

    pub fn request(own: &Settings) -> Header {
        Header {
            code: Code::Request,
            areas: own.areas,
            watch: own.watch,
            ..Header::trigger(own.number)
        }
    }

    /// A block of our turn; the last one carries the token. The others name the same destination
    /// (clause 10.1.1 h).
    pub fn block(own: &Settings, block: u8, next: u8) -> Header {
        let blocks = own.areas.blocks();
        let last = block == blocks;
        Header {
            code: if last { Code::Token } else { Code::Cyclic },
            destination: next,
            block,
            blocks,
            size: own.areas.block(block).len() as u16,
            ..Header::request(own)
        }
    }

    /// Writes the frame to the front of the output and gives its octets.
    pub fn write(&self, data: &[u8], output: &mut [u8]) -> usize {
        let octets = HEADER + data.len();
        let (header, rest) = output.split_at_mut(HEADER);
        header.fill(0);
        header[at::H_TYPE..at::TFL].copy_from_slice(&MARK);
        header[at::SNA] = self.source;
        header[at::DNA] = self.destination;
        header[at::P_TYPE] = PROTOCOL;
        header[at::CBN] = self.block;
        header[at::TBN] = self.blocks;
        header[at::TW] = self.watch;
        for (at, value) in [
            (at::TFL + 2, octets as u16),
            (at::TCD, self.code as u16),
            (at::C_AD1, self.areas.one.address),
            (at::C_SZ1, self.areas.one.size),
            (at::C_AD2, self.areas.two.address),
            (at::C_SZ2, self.areas.two.size),
            (at::BSIZE, self.size),
        ] {
            header[at..at + 2].copy_from_slice(&value.to_be_bytes());
        }
        rest[..data.len()].copy_from_slice(data);
        octets
    }
}
