//! Every call of the gateway against the second implementation: answer, output, and that nothing else is written.

use check::compare::Comparison;
use check::plan;
use gateway::Gateway;

#[test]
fn every_call() {
    let mut gateway = Gateway::default();
    let mut comparison = Comparison::new(&mut gateway);
    if let Err(disagreement) = plan::by_profile(&mut comparison) {
        panic!("{disagreement}");
    }
    println!("{} calls agree", comparison.calls());
    for refusal in [0, 1, 2, 5, 6, 8, 9, 10, 11, 13, 14] {
        assert!(comparison.met[refusal] > 0, "refusal {refusal} was never met");
    }
    for refusal in [3, 4, 12] {
        assert_eq!(comparison.met[refusal], 0, "refusal {refusal} was met");
    }
}
