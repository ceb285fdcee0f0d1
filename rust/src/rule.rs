use crate::Refusal;

/// The number of the refusal that a rule is neither 1 nor 2.
const NO_RULE: u32 = 17;

/// The pair rule: how a segment is measured against a triangle, and a triangle against a triangle.
///
/// Functions without a rule go by rule 1; those whose name ends in `_by` take one. Between points and lines alone the two answer the same.
#[derive(Clone, Copy, Debug, Default, PartialEq, Eq, Hash)]
pub enum Rule {
    /// A segment that passes through a triangle is measured at its ends and at the triangle's edges, as in the original.
    #[default]
    One = viskorrel_sys::RULE_1 as isize,
    /// A segment that passes through a triangle touches it where it crosses: a crossing is tried first.
    Two = viskorrel_sys::RULE_2 as isize,
}

/// Of a number that came from elsewhere.
///
/// ```
/// use viskorrel::{Refusal, Rule};
///
/// assert_eq!(Rule::try_from(2), Ok(Rule::Two));
/// assert_eq!(Rule::try_from(3), Err(Refusal { number: 17, side: 0 }));
/// ```
impl TryFrom<u32> for Rule {
    type Error = Refusal;

    fn try_from(number: u32) -> Result<Rule, Refusal> {
        match number {
            viskorrel_sys::RULE_1 => Ok(Rule::One),
            viskorrel_sys::RULE_2 => Ok(Rule::Two),
            _ => Err(Refusal { number: NO_RULE, side: 0 }),
        }
    }
}
