//! Hands the lines of a batch to the collector, in one call of the library: their rows in a format, the rows for the archive, and what they close.
use crate::failure::Failure;
use mooringeye::{Closing, Collector, Format, Lines, Taken};

/// What the lines of a batch gave.
pub struct Batch {
    taken: Taken,
}

impl Batch {
    /// With what they close, or without.
    pub fn new(with_closings: bool) -> Batch {
        Batch { taken: if with_closings { Taken::with_closings() } else { Taken::new() } }
    }

    /// Takes whole lines from the start of a text, at most `most`. They replace the lines before.
    pub fn take(&mut self, collector: &mut Collector, level: u8, format: Format, text: &[u8], most: usize) -> Result<Lines, Failure> {
        let took = collector.lines_as(level, format, text, most, &mut self.taken);
        took.map_err(|why| Failure::refused("the collector", why))
    }

    /// Their rows, in the requested format.
    pub fn printed(&self) -> &[u8] {
        self.taken.text()
    }

    /// KEPT and LOOSE rows, as `put_rows` takes them.
    pub fn times(&self) -> &[u64] {
        self.taken.moments()
    }

    pub fn records(&self) -> &[u8] {
        self.taken.records()
    }

    pub fn closings(&self) -> impl Iterator<Item = Closing> + '_ {
        self.taken.closings()
    }

    pub fn clear(&mut self) {
        self.taken.clear();
    }
}
