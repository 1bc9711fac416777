//! The pairs of demand 3 notice the faults that demand 3 alone shuts out.

use check::compare::Comparison;
use check::decoders::Faulty;
use check::{alike, confidences};
use second::Fault;

fn noticed(fault: Fault) -> bool {
    let mut faulty = Faulty::new(fault);
    let mut comparison = Comparison::new(&mut faulty);
    (1..=4).any(|m| (0..=m).any(|r| alike::sampled(&mut comparison, 1, m, r, 50).is_err()))
}

#[test]
fn pairs_notice_what_depends_on_the_codeword() {
    for fault in [Fault::LowerMask, Fault::AbstainerVotesZeros, Fault::OrderZeroTieZeros, Fault::AlwaysZeros] {
        assert!(noticed(fault), "{fault:?}");
    }
}

#[test]
fn pairs_admit_what_does_not() {
    for fault in [Fault::None, Fault::Always9, Fault::Always11, Fault::SettledUntested, Fault::ConstantLeaves] {
        assert!(!noticed(fault), "{fault:?}");
    }
}

/// The same of confidences, by blocks negated where a codeword is 1.
fn noticed_on_confidences(fault: Fault) -> bool {
    let mut faulty = Faulty::new(fault);
    let mut comparison = Comparison::new(&mut faulty);
    (1..=4).any(|m| (0..=m).any(|r| confidences::sampled_pairs(&mut comparison, 1, m, r, 30).is_err()))
}

#[test]
fn negation_notices_what_depends_on_the_codeword() {
    for fault in [
        Fault::SumZeroGivesZeros,
        Fault::LowerMaskOfValues,
        Fault::AbstainerAddsValues,
        Fault::CutTo2048,
        Fault::Inner17Votes,
        Fault::ElevenBefore17,
    ] {
        assert!(noticed_on_confidences(fault), "{fault:?}");
    }
}

#[test]
fn negation_admits_what_does_not() {
    for fault in [
        Fault::None,
        Fault::GreaterMagnitude,
        Fault::CutWhileAdding,
        Fault::NewValuesSeen,
        Fault::StopsUnchanged,
        Fault::AllAbstainedGivesZeros,
    ] {
        assert!(!noticed_on_confidences(fault), "{fault:?}");
    }
}
