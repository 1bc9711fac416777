//! The built program for planners against the second street: its lines, its summary, and bad settings.

use lister::street;
use second::street::{Plan, Step, OTHER};
use second::{profiles, Fault, Second};

fn plan(meters: usize, retries: usize, profile: usize, start: u32, wrong: usize) -> Plan {
    Plan { meters, retries, profile, start, wrong }
}

fn arguments(plan: Plan) -> Vec<String> {
    let Plan { meters, retries, profile, start, wrong } = plan;
    [profile, wrong, meters, retries, start as usize].map(|number| number.to_string()).to_vec()
}

fn steps(plan: Plan) -> Vec<Step> {
    let n = 1 << profiles::profile(plan.profile).expect("a profile of the table").m;
    Second::new(Fault::None).street(plan, usize::MAX, &mut [], &mut vec![0; n], &mut vec![0; 8 * n]).steps
}

fn line(step: &Step) -> String {
    let answer = match step.answer {
        0 => "right".to_string(),
        OTHER => "other".to_string(),
        refusal => format!("refused {refusal}"),
    };
    format!("{} {} {answer}\n", step.meter, step.attempt)
}

/// A meter is read where one of its blocks is accepted.
fn summary(plan: Plan, steps: &[Step]) -> String {
    let accepted = |step: &Step| matches!(step.answer, 0 | OTHER);
    let count = |test: &dyn Fn(&Step) -> bool| steps.iter().filter(|step| test(step)).count();
    let read = (0..plan.meters).filter(|meter| steps.iter().any(|step| step.meter == *meter && accepted(step))).count();
    format!(
        "{} sent, {} right, {} other, {} refused, {} never read\n",
        steps.len(),
        count(&|step| step.answer == 0),
        count(&|step| step.answer == OTHER),
        count(&|step| !accepted(step)),
        plan.meters - read
    )
}

/// With all numbers given; the word summary may stand anywhere.
fn agrees(plan: Plan) {
    let (steps, given) = (steps(plan), arguments(plan));
    let last = summary(plan, &steps);
    let lines: String = steps.iter().map(line).collect();
    assert_eq!(street(&given), (lines + &last, String::new()), "{plan:?}");
    for place in [0, 2, 5] {
        let mut words = given.clone();
        words.insert(place, "summary".to_string());
        assert_eq!(street(&words), (last.clone(), String::new()), "{words:?}");
    }
}

#[test]
fn streets_of_every_profile() {
    for wrong in [0, 7, 8, 9, 10, 12, 16, 32] {
        agrees(plan(20, 3, 0, 1 + wrong as u32, wrong));
    }
    for (profile, wrong) in [(1, 9), (1, 12), (1, 14), (2, 20), (3, 36)] {
        agrees(plan(12, 2, profile, 5, wrong));
    }
    agrees(plan(1, 0, 4, u32::MAX, 20));
}

#[test]
fn the_longest_streets() {
    agrees(plan(256, 15, 0, 1, 9));
    agrees(plan(256, 0, 0, u32::MAX, 8));
    agrees(plan(1, 15, 0, 2, 8));
}

/// "defaults that are said": profile 1, 3 wrong places, 100 meters, 3 retries, start 1.
#[test]
fn numbers_left_out() {
    agrees(plan(100, 3, 1, 1, 3));
    let all = arguments(plan(100, 3, 1, 1, 3));
    let whole = street(&all);
    for given in 0..5 {
        assert_eq!(street(&all[..given]), whole, "{given} numbers");
    }
    assert_eq!(whole.0.lines().count(), 101);
}

#[test]
fn zeros_in_front_of_a_number() {
    let long = "0".repeat(4_000) + "5";
    assert_eq!(street(&["00", "09", &long]), street(&["0", "9", "5"]));
}

/// A message on standard error, and nothing else.
fn refuses(given: &[&str], message: &str) {
    let (out, error) = street(given);
    assert_eq!(out, "", "{given:?}");
    assert!(error.starts_with(&format!("street: {message}")) && error.ends_with('\n'), "{given:?}: {error}");
}

#[test]
fn bad_arguments() {
    let endless = "1".repeat(10_000);
    let bad = ["", " ", "-1", "+1", "1 ", " 1", "0x1", "1.0", "1:", "1/", "a", "Summary", "summar", "summaryy", "٣"];
    let numbers = ["4294967296", "4294967297", "18446744073709551616", "18446744073709551617", &endless];
    for text in bad.iter().chain(&numbers) {
        refuses(&[text], "argument 1 is neither");
        refuses(&["0", "summary", "9", text, "1"], "argument 4 is neither");
    }
    refuses(&["0", "9", "1", "0", "1", "1"], "argument 6 is a sixth number");
    refuses(&["0", "9", "summary", "1", "0", "1", "1"], "argument 7 is a sixth number");
    refuses(&["0", "9", "1", "0", "1", "x"], "argument 6 is neither");
}

#[test]
fn settings_beyond_their_limits() {
    for (given, message) in [
        (["5", "3", "1", "0", "1"], "refused 14: profiles are 0 to 4"),
        (["4294967295", "3", "1", "0", "1"], "refused 14: "),
        (["0", "3", "1", "0", "0"], "refused 21: the start is 1 or more"),
        (["0", "33", "1", "0", "1"], "refused 22: "),
        (["0", "3", "0", "0", "1"], "refused 23: meters are 1 to 256"),
        (["0", "3", "257", "0", "1"], "refused 23: "),
        (["0", "3", "1", "16", "1"], "refused 24: retries are 0 to 15"),
        // the first in the order of the checks
        (["5", "33", "257", "16", "0"], "refused 23: "),
        (["5", "33", "1", "16", "0"], "refused 24: "),
        (["5", "33", "1", "0", "0"], "refused 14: "),
        (["0", "33", "1", "0", "0"], "refused 21: "),
    ] {
        refuses(&given, message);
    }
}
