//! `differential [--mix limits|settling] [--seed S] [--submissions N]`: compares the core with the
//! second program until N submissions are done, and prints which answers were reached. Without
//! arguments it is the short run.
//!
//! `differential --conversions N [--seed S]`: compares nothing but what both make of recordings of the
//! old form, until N of them are converted.

#![forbid(unsafe_code)]

use std::env;
use std::process::ExitCode;

use differential::convert;
use differential::convert::counts::Conversions;
use differential::mix::{Goal, Mix};
use differential::plan::{run, Plan, SHORT};
use differential::tally::Tally;

/// What is asked for.
struct Asked {
    plan: Plan,
    /// Only conversions, and how many.
    conversions: Option<u64>,
}

fn main() -> ExitCode {
    match arguments(env::args().skip(1)) {
        Ok(Asked {
            plan,
            conversions: None,
        }) => compare(plan),
        Ok(Asked {
            plan,
            conversions: Some(recordings),
        }) => compare_conversions(plan.seed, recordings),
        Err(line) => {
            eprintln!("differential: {line}");
            ExitCode::from(2)
        }
    }
}

fn compare(plan: Plan) -> ExitCode {
    let mut told = 0;
    let mut report = |tally: &Tally| {
        if tally.submissions() >= told + 250_000 {
            told = tally.submissions();
            eprintln!("{told} submissions");
        }
    };
    match run(plan, &mut report) {
        Ok(tally) => {
            println!("{plan}\n{tally}");
            let forbidden = tally.forbidden();
            if !forbidden.is_empty() {
                println!("reached, but not listed (operation, answer): {forbidden:?}");
            }
            let goals = plan.mix.goals(&tally);
            for goal in &goals {
                println!("{goal}");
            }
            let all = tally.missing().is_empty()
                && tally.ways().iter().all(|ways| ways.missing().is_empty())
                && tally.replays.missing().is_empty()
                && tally.reports.missing().is_empty()
                && tally.conversions.missing().is_empty();
            let reached = all && goals.iter().all(Goal::is_reached);
            ExitCode::from(u8::from(!reached || !forbidden.is_empty()))
        }
        Err(failure) => {
            println!("difference: {failure}");
            ExitCode::FAILURE
        }
    }
}

fn compare_conversions(seed: u64, recordings: u64) -> ExitCode {
    let mut told = 0;
    let mut report = |so_far: &Conversions| {
        if so_far.recordings() >= told + 50_000 {
            told = so_far.recordings();
            eprintln!("{told} recordings");
        }
    };
    match convert::rounds::run(seed, recordings, &mut report) {
        Ok(conversions) => {
            println!("seed {seed}\n{conversions}");
            ExitCode::from(u8::from(!conversions.missing().is_empty()))
        }
        Err(failure) => {
            println!("difference: {failure}");
            ExitCode::FAILURE
        }
    }
}

fn arguments(mut words: impl Iterator<Item = String>) -> Result<Asked, String> {
    let mut plan = SHORT;
    let mut conversions = None;
    while let Some(word) = words.next() {
        let mut value = || words.next().ok_or_else(|| format!("{word} needs a value"));
        match word.as_str() {
            "--mix" => plan.mix = mix(&value()?)?,
            "--seed" => plan.seed = number(&word, &value()?)?,
            "--submissions" => plan.submissions = number(&word, &value()?)?,
            "--conversions" => conversions = Some(number(&word, &value()?)?),
            _ => {
                return Err(format!(
                    "{word:?} is not --mix, --seed, --submissions or --conversions"
                ))
            }
        }
    }
    Ok(Asked { plan, conversions })
}

fn mix(name: &str) -> Result<Mix, String> {
    Mix::named(name).ok_or_else(|| format!("--mix {name:?} is neither limits nor settling"))
}

fn number(word: &str, digits: &str) -> Result<u64, String> {
    digits
        .parse()
        .map_err(|_| format!("{word} {digits:?} is no number"))
}
