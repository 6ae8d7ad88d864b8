//! What the option "alerting" says: the rule set of an access, and whether a party that still
//! alerts may be transferred. Nothing else takes the option apart.

/// The highest value of the option.
pub const HIGHEST: u8 = 3;

#[derive(Clone, Copy, PartialEq, Eq, Debug)]
pub enum RuleSet {
    European,
    American,
}

impl RuleSet {
    pub const BOTH: [RuleSet; 2] = [RuleSet::European, RuleSet::American];

    pub fn of(alerting: u8) -> RuleSet {
        if alerting < 2 {
            RuleSet::European
        } else {
            RuleSet::American
        }
    }
}

/// Whether a party that still alerts may be transferred.
pub fn alerting_allowed(alerting: u8) -> bool {
    matches!(alerting, 1 | 3)
}
