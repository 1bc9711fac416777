//! The blocks of the guarantee notice decoders that break it, and it ends where document 02 says.

use check::compare::Comparison;
use check::decoders::Faulty;
use check::guarantee;
use second::Fault;

fn noticed(fault: Fault) -> bool {
    let mut faulty = Faulty::new(fault);
    let mut comparison = Comparison::new(&mut faulty);
    (1..=3).any(|m| (0..=m).any(|r| guarantee::every(&mut comparison, m, r).is_err()))
        || guarantee::sampled(&mut comparison, 1, 4, 2).is_err()
}

#[test]
fn the_right_decoder_mends() {
    assert!(!noticed(Fault::None));
}

#[test]
fn decoders_that_break_it_are_noticed() {
    let broken = [
        Fault::Always9,
        Fault::ReceivedWordBack,
        Fault::AlwaysZeros,
        Fault::LowestOneInVote,
        Fault::EqualIsTwelve,
        Fault::OnesMended,
    ];
    for fault in broken {
        assert!(noticed(fault), "{fault:?}");
    }
}

fn mended(m: usize, r: usize, rounds: usize, places: &[usize]) -> bool {
    let mut right = Faulty::new(Fault::None);
    let noise: Vec<u8> = (0..1 << m).map(|p| places.contains(&p) as u8).collect();
    guarantee::mends(&mut Comparison::new(&mut right), (m, r), rounds, &vec![0; 1 << m], &noise).is_ok()
}

#[test]
fn half_the_distance_and_one_round_are_too_much_and_too_few() {
    assert!(mended(4, 2, 2, &[0]));
    assert!(!mended(4, 2, 2, &[0, 1]));
    assert!(!mended(4, 2, 1, &[0]));
}

/// Document 02's product, by hand.
#[test]
fn products() {
    let known = [(1, 0, 1), (10, 1, 1), (2, 2, 6), (6, 2, 126), (8, 2, 510), (8, 3, 129_540), (6, 4, 234_360)];
    for (m, r, leaves) in known {
        assert_eq!(guarantee::product(m, r), leaves);
    }
}
