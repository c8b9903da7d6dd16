//! The calls that are made under valgrind, without it: what they may not change is kept.

use differential::lent::Trial;
use differential::tally::{QUESTIONS, Tally};

#[test]
fn random_calls() {
    let tally = &mut Tally::default();
    for trial in Trial::large() {
        let name = trial.call.name();
        assert_eq!(trial.make(tally), Ok(0), "{name} of 512 concepts");
    }
    for seed in 0..50_000 {
        let made = Trial::new(seed).make(tally);
        made.unwrap_or_else(|what| panic!("seed {seed}: {what}"));
    }
    println!("lent: {tally}");
    for (call, _) in QUESTIONS {
        assert!(tally.returned(call, 0) >= 500, "{call} accepted");
    }
    // A store with too many axioms, and a change to too many, ask for many concepts.
    let rare = [14, 17];
    let unmet = tally.unmet();
    assert!(
        unmet.iter().all(|(_, number)| rare.contains(number)),
        "{unmet:?}"
    );
}
