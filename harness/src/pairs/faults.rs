//! Stand-ins for the archive that are wrong on purpose, each in one way that
//! one of the facts shuts out.

use second::router::Best;
use second::units::ContactNo;
use second::{Ask, Figures, Refusal};

use super::answers::{Answer, Answers, Archive, Lent};
use super::facts::Kind;

/// What a stand-in does wrong.
#[derive(Clone, Copy, Debug, PartialEq, Eq)]
pub enum Fault {
    /// A file asked for at an odd time is sent two milliseconds faster.
    WaitShortens,
    /// A file of an odd size takes two milliseconds more.
    SmallerTakesLonger,
    /// Where the deadline leaves ten milliseconds, one of them is used up.
    DeadlineUsedUp,
    /// On a plan with an odd number of contacts a file takes a millisecond more.
    CountDelays,
    /// The last call is one later than it is.
    LastCallLater,
    /// The last call is one earlier than it is.
    LastCallEarlier,
}

impl Fault {
    /// Each with the kind of pairs that must find it.
    pub const ALL: [(Self, Kind); 6] = [
        (Self::WaitShortens, Kind::Later),
        (Self::SmallerTakesLonger, Kind::Larger),
        (Self::DeadlineUsedUp, Kind::Due),
        (Self::CountDelays, Kind::Further),
        (Self::LastCallLater, Kind::UntilLastCall),
        (Self::LastCallEarlier, Kind::PastLastCall),
    ];

    fn spoil(self, lent: &Lent, ask: Ask, best: &mut Best) {
        let figures = &mut best.figures;
        let odd = |number: u64| number % 2;
        match self {
            Self::WaitShortens => figures.delivery -= 2 * odd(ask.time),
            Self::SmallerTakesLonger => figures.delivery += 2 * odd(ask.size),
            Self::DeadlineUsedUp => {
                figures.delivery += u64::from(figures.delivery + 10 < ask.deadline);
            }
            Self::CountDelays => figures.delivery += odd(lent.tables.contact_count),
            Self::LastCallLater => figures.last_call += 1,
            Self::LastCallEarlier => figures.last_call = figures.last_call.saturating_sub(1),
        }
    }
}

impl Answers for Fault {
    fn route(&self, lent: &Lent, ask: Ask) -> Answer {
        let mut best = Archive.route(lent, ask)?;
        self.spoil(lent, ask, &mut best);
        Ok(best)
    }

    fn walk(&self, lent: &Lent, ask: Ask, chain: &[ContactNo]) -> Result<Figures, Refusal> {
        Archive.walk(lent, ask, chain)
    }
}
