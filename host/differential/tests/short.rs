//! The seeded short runs: no difference, and every answer that the rules list is reached, every way
//! in which a hold decides at the daily cap, a journal row whether a nonce is used, an acceptance
//! deadline whether a reply comes in time, a check of a reply before another or a closed wallet what
//! is answered, every finding of a lookup and of a replay, and all that a report and the conversion of
//! an old recording must come to.

use differential::mix::Mix;
use differential::plan::{run, Plan, SHORT};

fn finds_no_difference_and_reaches_all(plan: Plan) {
    let tally = run(plan, &mut |_| {}).unwrap_or_else(|f| panic!("{f}"));
    println!("{plan}\n{tally}");
    assert_eq!(tally.missing(), [], "not reached");
    for ways in tally.ways() {
        assert_eq!(ways.missing(), [""; 0], "not reached of {}", ways.kind());
    }
    assert_eq!(tally.replays.missing(), [""; 0], "not reached by replays");
    assert_eq!(tally.reports.missing(), [""; 0], "not reached by reports");
    assert_eq!(
        tally.conversions.missing(),
        [""; 0],
        "not reached by conversions"
    );
    assert_eq!(
        tally.forbidden(),
        [],
        "an answer that the rules do not list for the operation"
    );
    for goal in plan.mix.goals(&tally) {
        assert!(goal.is_reached(), "{goal}");
    }
}

#[test]
fn short_run_finds_no_difference_and_reaches_every_answer() {
    finds_no_difference_and_reaches_all(SHORT);
}

#[test]
fn short_run_of_what_settles_does_so_too_and_comes_to_its_goals() {
    finds_no_difference_and_reaches_all(Plan {
        mix: Mix::Settling,
        submissions: 150_000,
        ..SHORT
    });
}
