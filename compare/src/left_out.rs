//! What is left out of the comparison with the crate, counted by reason.

use std::fmt;

#[derive(Clone, Copy, PartialEq, Eq)]
pub enum Reason {
    /// A part with a minus that comes to zero while negatives are forbidden: the
    /// crate may refuse it (document 01).
    MinusZero,
    /// A spoken part with a typed minus and a product above the nineteenth power:
    /// the crate forgets the minus.
    ForgottenSign,
    /// A spoken part that begins where a unit's lookup failed: the crate looks the
    /// unit's stretch up again, though the numeral's ends sooner.
    OldStretch,
    /// A spoken part whose product has the coefficient -9223372036854775808: the
    /// crate reads on.
    LeastCoefficient,
}

impl Reason {
    const ALL: [Reason; 4] = [
        Reason::MinusZero,
        Reason::ForgottenSign,
        Reason::OldStretch,
        Reason::LeastCoefficient,
    ];
}

impl fmt::Display for Reason {
    fn fmt(&self, out: &mut fmt::Formatter<'_>) -> fmt::Result {
        out.write_str(match self {
            Reason::MinusZero => "minus zero",
            Reason::ForgottenSign => "forgotten sign",
            Reason::OldStretch => "old stretch",
            Reason::LeastCoefficient => "least coefficient",
        })
    }
}

/// How many requests were left out for each reason.
#[derive(Default)]
pub struct LeftOut([u64; Reason::ALL.len()]);

impl LeftOut {
    pub fn count(&mut self, reason: Reason) {
        self.0[reason as usize] += 1;
    }
}

impl fmt::Display for LeftOut {
    fn fmt(&self, out: &mut fmt::Formatter<'_>) -> fmt::Result {
        let all: u64 = self.0.iter().sum();
        write!(out, "{all} left out")?;
        let counted = Reason::ALL.iter().zip(self.0);
        let reasons: Vec<String> = counted
            .filter(|(_, count)| *count > 0)
            .map(|(reason, count)| format!("{reason}: {count}"))
            .collect();
        if !reasons.is_empty() {
            write!(out, " ({})", reasons.join("; "))?;
        }
        Ok(())
    }
}
