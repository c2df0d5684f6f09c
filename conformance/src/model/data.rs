//! Putting divided cyclic data together, one turn at a time.

use super::frame::Header;
use super::Areas;

/// What became of a cyclic frame's data.
#[derive(Clone, Copy, Debug, PartialEq, Eq)]
pub enum Data {
    Kept,
    Written,
    Dropped,
    /// The last block still gathered, heard once more.
    Repeat,
}

/// What has been put together: blocks 1 to `blocks` of the source's turn.
#[derive(Clone, Copy, Debug, PartialEq, Eq)]
pub struct Gathered {
    pub source: u8,
    pub blocks: u8,
}

/// The turn being put together, if any.
#[derive(Clone, Copy, Debug, Default, PartialEq, Eq)]
pub struct Gathering(pub Option<Gathered>);

impl Gathering {
    /// Drops what was gathered from this source.
    pub fn drop_from(&mut self, source: u8) {
        if self.0.is_some_and(|gathered| gathered.source == source) {
            self.0 = None;
        }
    }

    /// The block that this source has to send next for its turn to go on.
    fn next_of(&self, source: u8) -> u8 {
        match self.0 {
            Some(gathered) if gathered.source == source => gathered.blocks + 1,
            _ => 1,
        }
    }

    /// Whether this is the last block still gathered, with the octets that the assembly buffer, as it
    /// is lent now, has in its place.
    fn is_repeat(&self, header: &Header, data: &[u8], assembly: &[u8]) -> bool {
        let heard = Gathered {
            source: header.source,
            blocks: header.block,
        };
        self.0 == Some(heard) && assembly[header.areas.block(header.block)] == *data
    }

    pub fn gather(
        &mut self,
        header: &Header,
        data: &[u8],
        listed: &Areas,
        memory: &mut [u8],
        assembly: &mut [u8],
    ) -> Data {
        let as_listed = header.areas == *listed;
        if as_listed && self.is_repeat(header, data, assembly) {
            return Data::Repeat;
        }
        let next = self.next_of(header.source);
        self.0 = None;
        if !as_listed || header.block != 1 && header.block != next {
            return Data::Dropped;
        }
        assembly[listed.block(header.block)].copy_from_slice(data);
        if header.block == header.blocks {
            listed.put(assembly, memory);
            return Data::Written;
        }
        self.0 = Some(Gathered {
            source: header.source,
            blocks: header.block,
        });
        Data::Kept
    }
}
