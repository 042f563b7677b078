//! An ask as it is given, and as it is once its values are known to be good.

use crate::plan::Contact;
use crate::refusal::{Refusal, ASK_VALUE, NO_SUCH_CLASS, SOURCE_IS_DESTINATION};
use crate::units::{Class, Millis, NodeNo, LARGEST_SIZE, LATEST_TIME};

/// An ask as a caller gives it: any numbers at all.
#[derive(Clone, Copy, Debug, PartialEq, Eq)]
pub struct Ask {
    pub source: u64,
    pub destination: u64,
    pub time: u64,
    pub size: u64,
    pub deadline: u64,
    pub excluded: u64,
}

/// An ask with every value in its range and two different nodes.
#[derive(Clone, Copy, Debug)]
pub struct GoodAsk {
    pub source: NodeNo,
    pub destination: NodeNo,
    pub time: Millis,
    pub size: u64,
    pub deadline: Millis,
    pub excluded: u64,
}

impl Ask {
    /// The six numbers in the order of an ask's line.
    pub fn numbers(&self) -> [u64; 6] {
        [
            self.source,
            self.destination,
            self.time,
            self.size,
            self.deadline,
            self.excluded,
        ]
    }

    /// The ask with its kinds of number told apart, or refusal 11 or 12: an
    /// ask without a class is one of the lowest.
    pub fn check(self) -> Result<GoodAsk, Refusal> {
        let (good, _) = self.check_in(Class::LOWEST.0)?;
        Ok(good)
    }

    /// The ask and its class, or refusal 11, 24 or 12.
    pub fn check_in(self, class: u64) -> Result<(GoodAsk, Class), Refusal> {
        let class = Class(class);
        let good = GoodAsk {
            source: NodeNo(self.source),
            destination: NodeNo(self.destination),
            time: Millis(self.time),
            size: self.size,
            deadline: Millis(self.deadline),
            excluded: self.excluded,
        };
        if !good.is_in_range() {
            return Err(Refusal::bare(ASK_VALUE));
        }
        if !class.exists() {
            return Err(Refusal::bare(NO_SUCH_CLASS));
        }
        if good.source == good.destination {
            return Err(Refusal::bare(SOURCE_IS_DESTINATION));
        }
        Ok((good, class))
    }
}

impl GoodAsk {
    fn is_in_range(&self) -> bool {
        self.source.exists()
            && self.destination.exists()
            && self.time.0 <= LATEST_TIME
            && self.deadline.0 <= LATEST_TIME
            && (1..=LARGEST_SIZE).contains(&self.size)
    }

    /// Whether the contact goes from the source to an excluded neighbour.
    pub fn excludes(&self, contact: &Contact) -> bool {
        contact.from == self.source && self.excluded >> contact.to.index() & 1 == 1
    }
}
