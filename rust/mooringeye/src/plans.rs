//! Slot plans, and the check of a whole site.
use crate::raw;
use crate::refusal::{done, Refusal};

/// A timing rule.
///
/// ```
/// use mooringeye::{Rule, SlotPlan};
///
/// # fn main() -> Result<(), mooringeye::Refusal> {
/// let plan = SlotPlan::draw(Rule::Compressed, 0, 3, 1_000, 0)?;
/// assert!(plan.is_lawful(Rule::Compressed, 0, 1_000));
/// assert!(!plan.is_lawful(Rule::Standard, 0, 1_000));
/// # Ok(())
/// # }
/// ```
#[derive(Clone, Copy, Debug, PartialEq, Eq, Hash)]
#[repr(u8)]
pub enum Rule {
    /// The ranges of document 01.
    Standard = 0,
    /// The compressed ranges of source document 000.
    Compressed = 1,
    /// With a pause before the second transmission, of source document 004.
    Paused = 2,
}

/// Which slots a repeater uses.
///
/// ```
/// use mooringeye::{Refusal, Rule, SlotPlan};
///
/// let plan = SlotPlan::draw(Rule::Standard, 0, 3, 1_000, 7).unwrap();
/// assert_eq!(plan, SlotPlan { first: 0, second: 1, third: Some(27) });
/// assert_eq!(SlotPlan::draw(Rule::Standard, 0, 3, 9_001, 7), Err(Refusal::NoPlan));
/// ```
#[derive(Clone, Copy, Debug, PartialEq, Eq, Hash)]
pub struct SlotPlan {
    /// The slot of the first transmission.
    pub first: u8,
    /// The slot of the second.
    pub second: u8,
    /// The slot of the third, where there is one; `Some(255)` means none too.
    pub third: Option<u8>,
}

// The third slot of the library if there is none.
const NONE: u8 = 255;

impl SlotPlan {
    /// The plan that a draw picks among the lawful ones, for a level sent, a number of transmissions and a duration in microseconds. Refused:
    /// [`Refusal::Argument`], [`Refusal::NoPlan`].
    pub fn draw(rule: Rule, level: u8, transmissions: u8, duration: u32, draw: u64) -> Result<SlotPlan, Refusal> {
        let [number, first, second, third] = raw::plan_by(rule as u8, level, transmissions, duration, draw).to_be_bytes();
        done(number)?;
        Ok(SlotPlan { first, second, third: (third != NONE).then_some(third) })
    }

    /// Whether the plan is lawful under a rule, at a level sent and a duration in microseconds.
    pub fn is_lawful(&self, rule: Rule, level: u8, duration: u32) -> bool {
        raw::is_lawful(rule as u8, level, duration, self.first, self.second, self.third.unwrap_or(NONE))
    }
}

/// What one repeater of a site sends.
///
/// ```
/// use mooringeye::{Assignment, Rule, SlotPlan};
///
/// let plan = SlotPlan { first: 10, second: 20, third: None };
/// let a = Assignment { rule: Rule::Standard, level: 1, duration: 1_999, plan };
/// assert!(a.plan.is_lawful(a.rule, a.level, a.duration));
/// ```
#[derive(Clone, Copy, Debug, PartialEq, Eq, Hash)]
pub struct Assignment {
    /// Its rule.
    pub rule: Rule,
    /// The level that it sends at.
    pub level: u8,
    /// How long it is on air, in microseconds.
    pub duration: u32,
    /// Its slots.
    pub plan: SlotPlan,
}

/// What the check of a site says.
///
/// ```
/// use mooringeye::{Assignment, Rule, Site, SlotPlan};
///
/// let at = |first, second| Assignment {
///     rule: Rule::Standard,
///     level: 1,
///     duration: 1_999,
///     plan: SlotPlan { first, second, third: None },
/// };
/// assert_eq!(Site::check(&[at(10, 20), at(12, 22)]), Site::Accepted);
/// assert_eq!(Site::check(&[at(10, 20), at(11, 22)]), Site::Overlap(0, 1));
/// assert_eq!(Site::check(&[at(10, 20), at(10, 30)]), Site::Unlawful(1));
/// ```
#[derive(Clone, Copy, Debug, PartialEq, Eq, Hash)]
pub enum Site {
    /// Every plan is lawful, and no two transmissions overlap.
    Accepted,
    /// More than 32 repeaters, or a level or duration out of range (10).
    OutOfRange,
    /// The first repeater whose plan is not lawful (18).
    Unlawful(usize),
    /// The first two repeaters that overlap (19).
    Overlap(usize, usize),
}

impl Site {
    /// The check of repeaters that hear one sender at once.
    pub fn check(repeaters: &[Assignment]) -> Site {
        let mut bytes = Vec::with_capacity(9 * repeaters.len());
        for a in repeaters {
            bytes.extend([a.rule as u8, a.level]);
            bytes.extend(a.duration.to_be_bytes());
            bytes.extend([a.plan.first, a.plan.second, a.plan.third.unwrap_or(NONE)]);
        }
        let [_, number, one, other] = raw::site(&bytes).to_be_bytes();
        match Refusal::from_number(number) {
            None => Site::Accepted,
            Some(Refusal::Unlawful) => Site::Unlawful(one.into()),
            Some(Refusal::Overlap) => Site::Overlap(one.into(), other.into()),
            Some(_) => Site::OutOfRange,
        }
    }
}

#[cfg(test)]
mod tests {
    use super::*;

    #[test]
    fn too_many() {
        let plan = SlotPlan { first: 0, second: 1, third: Some(20) };
        let a = Assignment { rule: Rule::Standard, level: 0, duration: 1, plan };
        assert_eq!(Site::check(&[]), Site::Accepted);
        assert_eq!(Site::check(&[a]), Site::Accepted);
        assert_eq!(Site::check(&[a; 32]), Site::Overlap(0, 1));
        assert_eq!(Site::check(&[a; 33]), Site::OutOfRange);
        assert_eq!(Site::check(&[a; 10_000]), Site::OutOfRange);
    }

    #[test]
    fn out_of_range() {
        assert_eq!(SlotPlan::draw(Rule::Standard, 3, 3, 1, 0), Err(Refusal::Argument));
        assert_eq!(SlotPlan::draw(Rule::Standard, 0, 2, 1, 0), Err(Refusal::Argument));
        assert_eq!(SlotPlan::draw(Rule::Paused, 0, 2, 0, 0), Err(Refusal::Argument));
        assert_eq!(SlotPlan::draw(Rule::Compressed, 2, 2, 1, 0), Err(Refusal::NoPlan));
    }
}
