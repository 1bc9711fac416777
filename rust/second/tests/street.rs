//! The second street by hand: who sends when, which block it is, and that the counts add up.

use second::street::{Plan, Step, Walked, OTHER};
use second::{load, profiles, Fault, Second};

const PLAN: Plan = Plan { meters: 5, retries: 3, profile: 0, start: 4, wrong: 10 };

/// So many steps, and the block's buffer after them.
fn walked(plan: Plan, steps: usize) -> (Walked, Vec<u8>) {
    let n = 1 << profiles::profile(plan.profile).expect("a profile of the table").m;
    let (mut word, mut area) = (vec![7; n], vec![7; 8 * n]);
    let walked = Second::new(Fault::None).street(plan, steps, &mut [], &mut word, &mut area);
    assert_eq!(area, vec![if walked.steps.is_empty() { 7 } else { 0 }; 8 * n]);
    (walked, word)
}

fn refused(step: &Step) -> bool {
    !matches!(step.answer, 0 | OTHER)
}

#[test]
fn the_order_of_the_street() {
    for start in 1..200 {
        let plan = Plan { start, ..PLAN };
        let steps = walked(plan, usize::MAX).0.steps;
        let of = |attempt: usize| steps.iter().filter(move |step| step.attempt == attempt);
        assert!(steps.windows(2).all(|two| (two[0].attempt, two[0].meter) < (two[1].attempt, two[1].meter)));
        assert_eq!(of(0).map(|step| step.meter).collect::<Vec<usize>>(), [0, 1, 2, 3, 4]);
        for attempt in 1..=plan.retries {
            let before: Vec<usize> = of(attempt - 1).filter(|step| refused(step)).map(|step| step.meter).collect();
            assert_eq!(of(attempt).map(|step| step.meter).collect::<Vec<usize>>(), before);
        }
        assert_eq!(of(plan.retries + 1).count(), 0);
    }
}

#[test]
fn each_block_is_the_next_of_one_load() {
    let whole = walked(PLAN, usize::MAX).0;
    let (mut state, mut block) = (PLAN.start, vec![7; 32]);
    for steps in 0..=whole.steps.len() {
        let (part, word) = walked(PLAN, steps);
        assert_eq!(part.steps, whole.steps[..steps]);
        assert!(!part.none_left);
        assert_eq!(word, block);
        state = load::block(PLAN.profile, state, PLAN.wrong, &mut block, Fault::None).state;
    }
    assert!(whole.none_left);
    assert!(walked(PLAN, whole.steps.len() + 1).0.none_left);
}

#[test]
fn fewer_wrong_places_than_half_the_distance_are_right() {
    for (profile, wrong) in [(0, 7), (1, 7), (2, 15)] {
        let whole = walked(Plan { profile, wrong, meters: 8, ..PLAN }, usize::MAX).0;
        assert!(whole.steps.iter().all(|step| step.answer == 0 && step.attempt == 0));
        assert_eq!(whole.steps.len(), 8);
    }
}

/// With so much noise most blocks are read as another codeword, which the meter does not send again.
#[test]
fn another_codeword_is_not_sent_again() {
    let whole = walked(Plan { wrong: 32, ..PLAN }, usize::MAX).0;
    let shown: Vec<(usize, usize, u8)> = whole.steps.iter().map(|s| (s.meter, s.attempt, s.answer)).collect();
    assert_eq!(shown, [(0, 0, OTHER), (1, 0, OTHER), (2, 0, 9), (3, 0, OTHER), (4, 0, OTHER), (2, 1, OTHER)]);
}
