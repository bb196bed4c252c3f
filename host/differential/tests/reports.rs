//! A wrong report is found, and shown in a few steps. The wrong ones here stand against the second
//! program's; the core's is compared with that in the runs, and as the crate gives it here.

use differential::dice::Dice;
use differential::history::{Begin, History};
use differential::replay::lent::{Length, On};
use differential::replay::recording::{By, Change};
use differential::replay::Replay;
use differential::report::brought::{Brought, Full, Room};
use differential::report::gains::{gains, CELL, EXPIRED, GRANTED, RELEASED};
use differential::report::twice::{five, told, Twice};
use differential::report::{all_gains, days, made, Month, Part};
use differential::small::{shrink_by, Small};
use differential::twin::{first_difference, lent, same, Difference, World};
use milebeacon::ffi::Told;
use milebeacon::{Ledger, Sizes};
use second::{add_recording, Added, Report, ENTRY_BYTES};

type Adder = fn(&mut Report, &mut World, &[u8]) -> Added;

/// Counts a cut entry if its record is there.
fn cut_entry_too(report: &mut Report, world: &mut World, recording: &[u8]) -> Added {
    let mut whole = recording.to_vec();
    if recording.len() % ENTRY_BYTES >= 108 {
        whole.resize((recording.len() / ENTRY_BYTES + 1) * ENTRY_BYTES, 0);
    }
    add_recording(report, &mut lent(world), &whole)
}

/// Leaves what the entry does that it stops before.
fn stops_after(report: &mut Report, world: &mut World, recording: &[u8]) -> Added {
    let added = add_recording(report, &mut lent(world), recording);
    if let Added::Stopped { entry, .. } = added {
        let from = (entry as usize - 1) * ENTRY_BYTES;
        second::submit(&mut lent(world), &recording[from..][..108]);
    }
    added
}

/// Counts on after it has stopped.
fn goes_on(report: &mut Report, world: &mut World, recording: &[u8]) -> Added {
    let named = report.named.take();
    let added = add_recording(report, &mut lent(world), recording);
    report.named = report.named.or(named);
    added
}

/// Of released and expired names the second.
fn expired_first(report: &mut Report, world: &mut World, recording: &[u8]) -> Added {
    let mut without = Report {
        released: 0,
        ..report.clone()
    };
    let last = add_recording(&mut without, &mut lent(&mut world.clone()), recording);
    let added = add_recording(report, &mut lent(world), recording);
    match (added, last) {
        (Added::Stopped { entry: one, .. }, Added::Stopped { entry, named }) if one == entry => {
            report.named = Some(named);
            last
        }
        _ => added,
    }
}

/// Counts operation 8 in a row of its own still.
fn eight_in_row_8(report: &mut Report, world: &mut World, recording: &[u8]) -> Added {
    let added = add_recording(report, &mut lent(world), recording);
    let counted = told(added).entries as usize;
    let records = recording.chunks_exact(ENTRY_BYTES).take(counted);
    let eights = records.filter(|entry| entry[2] == 8).count() as u64;
    report.grid[0][3] -= eights;
    report.grid[8][3] = report.grid[8][3].wrapping_add(eights);
    added
}

/// Where the wrong report differs from the right one.
fn difference(month: &Month, wrong: Adder) -> Option<Difference> {
    let made = made(&month.parts).expect("no panic");
    let mut right = month.brought.report(&all_gains(&made)).second().clone();
    let mut report = right.clone();
    made.iter().find_map(|made| {
        let (mut one, mut other) = (made.tables.clone(), made.tables.clone());
        let added = add_recording(&mut right, &mut lent(&mut other), &made.bytes);
        same("told", wrong(&mut report, &mut one, &made.bytes), added)
            .and_then(|_| same("named", report.named, right.named))
            .and_then(|_| same("report", &report, &right))
            .err()
            .or_else(|| first_difference(&one, &other))
    })
}

/// A busy day, recorded with this change.
fn part(seed: u64, change: Change) -> Part {
    let history = days::roll(&mut Dice::new(seed));
    let replay = Replay {
        place: history.steps.len() - 1,
        history,
        by: By::Second,
        change,
        on: On::InUse,
        seed,
    };
    Part {
        replay,
        left: false,
    }
}

/// A month of two recordings and these full figures in which the wrong report is found, and the same
/// made small.
fn smallest(change: Change, figures: &[usize], wrong: Adder) -> Small<Month> {
    for seed in 40.. {
        let brought = Brought {
            named: [0, 1, 2],
            seed,
            full: vec![Full {
                figures: figures.iter().map(|&f| (f, Room::Short)).collect(),
                turn: seed as usize,
            }],
        };
        let parts = vec![part(seed, change), part(seed + 1, change)];
        let month = Month { brought, parts };
        if let Some(found) = difference(&month, wrong) {
            return shrink_by(&month, found, &|month| difference(month, wrong));
        }
    }
    unreachable!("there is always another seed")
}

fn steps(small: &Small<Month>) -> Vec<usize> {
    let parts = small.inner.parts.iter();
    parts.map(|part| part.replay.history.steps.len()).collect()
}

#[test]
fn a_cut_entry_that_is_counted_takes_no_step() {
    let small = smallest(Change::Cut(110), &[], cut_entry_too);
    let told = small.story();
    // where nothing was recorded, it is zeros that are cut
    assert_eq!(steps(&small), [0], "{told}");
    assert_eq!(small.inner.brought, Brought::BLANK, "{told}");
    assert!(told.contains("entry 1: cut to 110 bytes"), "{told}");
    assert!(told.contains("told: "), "{told}");
}

#[test]
fn an_entry_that_is_applied_though_it_would_pass_takes_one_step() {
    let small = smallest(Change::Nothing, &[GRANTED, CELL], stops_after);
    let told = small.story();
    assert_eq!(steps(&small), [1], "{told}");
    assert_eq!(small.inner.brought.full[0].figures.len(), 1, "{told}");
    assert!(told.contains("header, row 1, word"), "{told}");
}

#[test]
fn a_report_that_goes_on_takes_two_recordings() {
    let small = smallest(Change::Nothing, &[GRANTED], goes_on);
    let told = small.story();
    assert_eq!(steps(&small).len(), 2, "{told}");
    assert!(steps(&small).iter().sum::<usize>() <= 2, "{told}");
    assert!(told.contains("recording 2: recorded by"), "{told}");
    assert!(told.contains("    granted: 184467"), "{told}");
}

#[test]
fn a_sweep_that_would_pass_two_takes_five_steps() {
    // grant, open, claim; another open, which expires; and the sweep
    let small = smallest(Change::Nothing, &[RELEASED, EXPIRED], expired_first);
    let told = small.story();
    assert_eq!(steps(&small), [5], "{told}");
    assert!(told.contains("named: Expired"), "{told}");
    assert!(told.contains("named: Released"), "{told}");
}

#[test]
fn an_8_that_is_counted_in_row_8_takes_one_step() {
    let small = smallest(Change::Nothing, &[], eight_in_row_8);
    let told = small.story();
    assert_eq!(steps(&small), [1], "{told}");
    assert_eq!(
        small.inner.parts[0].replay.history.steps[0].op, 14,
        "{told}"
    );
}

#[test]
fn a_full_figure_passes_with_its_entry_and_not_before() {
    for seed in 0..3 {
        let parts = [part(seed, Change::Nothing)];
        let made = made(&parts).expect("no panic");
        let entries = all_gains(&made);
        for figure in 0..=CELL {
            let raising = (1..).zip(&entries).filter(|(_, gain)| gain.raises(figure));
            for (turn, (entry, gain)) in raising.enumerate() {
                for room in [Room::Just, Room::Short] {
                    let brought = Brought {
                        full: vec![Full {
                            figures: vec![(figure, room)],
                            turn,
                        }],
                        ..Brought::BLANK
                    };
                    let mut report = brought.report(&entries).second().clone();
                    let through = &made[0].bytes[..entry * ENTRY_BYTES];
                    let mut tables = made[0].tables.clone();
                    let added = add_recording(&mut report, &mut lent(&mut tables), through);
                    let passes = room == Room::Short;
                    let counted = told(added).entries as usize + usize::from(passes);
                    assert_eq!(counted, entry, "{figure}, {turn}: {added:?}");
                    assert_eq!(report.named.is_some(), passes, "{figure}, {turn}");
                    let (row, column) = gain.cell;
                    let sums = five(&report);
                    let is = sums.get(figure).unwrap_or(&report.grid[row][column]);
                    assert!(passes || *is == u64::MAX, "{figure}, {turn}: {is}");
                }
            }
        }
    }
}

#[test]
fn what_entries_add_is_what_the_second_program_counts() {
    for seed in 0..50 {
        let dice = &mut Dice::new(seed);
        let history = match seed % 2 {
            0 => days::roll(dice),
            _ => History::of(Begin::Fresh, Sizes::PROGRAM, dice, 60),
        };
        let replay = Replay {
            history,
            ..part(seed, Change::Nothing).replay
        };
        let entries = replay.entries().expect("no panic");
        let bytes = replay.recording(&entries).expect("no panic").bytes;
        let mut tables = replay.tables();
        let mut report = Report::default();
        add_recording(&mut report, &mut lent(&mut tables), &bytes);
        let gains = gains(&tables, &bytes).expect("right lengths");
        let sum = |figure: usize| gains.iter().map(|gain| gain.credits[figure]).sum::<u64>();
        assert_eq!([0, 1, 2, 3, 4].map(sum), five(&report));
        for gain in &gains {
            report.grid[gain.cell.0][gain.cell.1] -= 1;
        }
        assert_eq!(report.grid, Report::default().grid);
    }
}

/// What the crate's own report says of a call and has named, as the entry point says it.
fn crates(report: &mut milebeacon::Report, world: &World, recording: &[u8]) -> (Told, [u64; 3]) {
    let added = report.add(&mut Ledger::over(world.clone()), recording);
    let (number, entries) = match added {
        Err(_) => (1, 0),
        Ok(added) => (0, added.counted()),
    };
    let named = report.named().map_or([0; 3], |named| {
        let [row, column] = [named.entry.row(), named.entry.column()].map(|place| place as u64);
        [named.figure.number(), row, column]
    });
    (Told { number, entries }, named)
}

#[test]
fn the_report_of_the_crate_is_the_second_programs_too() {
    for seed in 0..60 {
        let wrong = On::Length(seed as usize % 5, Length::WordLess);
        let mut parts = vec![part(seed, Change::Nothing), part(seed, Change::Cut(116))];
        parts.push(part(seed + 1, Change::Nothing));
        parts[seed as usize % 3].replay.on = wrong;
        let made = made(&parts).expect("no panic");
        let brought = Brought {
            full: vec![Full {
                figures: vec![(seed as usize % 6, Room::Short)],
                turn: seed as usize,
            }],
            ..Brought::BLANK
        };
        let begin = brought.report(&all_gains(&made));
        let mut right = begin.second().clone();
        let mut report = milebeacon::Report::from_parts(right.grid, five(&right), None);
        for made in &made {
            let (told_by_crate, named) = crates(&mut report, &made.tables, &made.bytes);
            let mut tables = made.tables.clone();
            let added = add_recording(&mut right, &mut lent(&mut tables), &made.bytes);
            assert_eq!(told_by_crate, told(added));
            let again = Twice::new(*report.grid(), report.credits(), named);
            assert_eq!(again.second(), &right);
        }
    }
}
