//! The makers of cases: seeded, for every operation, valid and damaged, on both sides of every limit.

pub mod chance;
pub mod damage;
pub mod lengths;
pub mod lists;
pub mod odd;
pub mod packed_sums;
pub mod random_sums;
pub mod random_tables;
pub mod random_texts;
pub mod readings;
pub mod slopes;
pub mod spellings;
pub mod spreads;
pub mod table_limits;
pub mod table_spreads;
pub mod table_writer;
pub mod tables;
pub mod texts;
pub mod unpacks;
pub mod words;

use crate::lines::{case_line, Case};
use crate::operations::{Operation, ALL};
use chance::Chance;

/// One line in so many of an operation is made odd: mostly it has no answer then.
const ODD_EVERY: usize = 50;
/// One fresh line in so many does not come from a case at all.
const STRANGE_EVERY: usize = 400;

/// The random cases of one operation. They are drawn from a stream of their own, which the operation's name seeds
/// together with the seed given, so they stay as they are whatever other operations draw, and however much.
pub struct Stream {
    operation: &'static Operation,
    chance: Chance,
}

impl Stream {
    pub fn new(seed: u64, operation: &'static Operation) -> Stream {
        Stream { operation, chance: Chance::named(seed, operation.name) }
    }

    pub fn case(&mut self) -> Case {
        let inputs = (self.operation.random)(&mut self.chance);
        let lengths = self.operation.lent.iter().map(|lent| lengths::length(&mut self.chance, lent)).collect();
        Case { operation: self.operation, inputs, lengths }
    }

    /// A line without its newline.
    pub fn line(&mut self) -> Vec<u8> {
        let case = self.case();
        if self.chance.one_in(ODD_EVERY) {
            return odd::odd_line(&mut self.chance, &case);
        }
        case_line(&case).into_bytes()
    }
}

/// The streams of all operations for one seed. Which of them is next comes from one more stream, so that an operation
/// more or another share changes where a case stands, and not what it is.
pub struct Fresh {
    streams: Vec<Stream>,
    turns: Chance,
    strange: Chance,
}

impl Fresh {
    pub fn new(seed: u64) -> Fresh {
        let streams = ALL.iter().map(|operation| Stream::new(seed, operation)).collect();
        Fresh { streams, turns: Chance::named(seed, "turns of all"), strange: Chance::named(seed, "strange lines") }
    }

    /// The stream whose turn it is; each has as many turns as its operation's share.
    fn next_stream(&mut self) -> &mut Stream {
        let shares: Vec<usize> = self.streams.iter().map(|stream| stream.operation.share).collect();
        let mut turn = self.turns.below(shares.iter().sum());
        let mut index = 0;
        while turn >= shares[index] {
            turn -= shares[index];
            index += 1;
        }
        &mut self.streams[index]
    }

    pub fn case(&mut self) -> Case {
        self.next_stream().case()
    }

    /// A line without its newline.
    pub fn line(&mut self) -> Vec<u8> {
        if self.turns.one_in(STRANGE_EVERY) {
            return odd::strange_line(&mut self.strange);
        }
        self.next_stream().line()
    }
}
