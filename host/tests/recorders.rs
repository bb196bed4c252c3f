//! A recorder: nothing is answered that is not written, and it goes on where it stopped.

use std::io::{self, Write};

use milebeacon::{
    Answer, Envelope, Ledger, Recorder, Recording, Refusal, Replay, Sizes, Submission, Tables,
    Unrecorded, ENTRY_BYTES,
};

const NOW: u64 = 1_700_000_000_000;

fn fresh() -> Ledger {
    Ledger::new(Sizes::PROGRAM).expect("right sizes")
}

/// The n-th grant of 5 to wallet 7.
fn grant(nonce: u64) -> Submission {
    Submission::grant(Envelope::new(NOW, 1, nonce).by_admin(), 7, 5)
}

/// Takes some bytes and then no more.
struct Filling(usize);

impl Write for Filling {
    fn write(&mut self, bytes: &[u8]) -> io::Result<usize> {
        if self.0 == 0 {
            return Err(io::Error::new(io::ErrorKind::Other, "the disk is full"));
        }
        let taken = bytes.len().min(self.0);
        self.0 -= taken;
        Ok(taken)
    }

    fn flush(&mut self) -> io::Result<()> {
        Ok(())
    }
}

#[test]
fn a_recorder_that_cannot_write_hands_out_no_answer_and_stops() {
    for room in [ENTRY_BYTES, ENTRY_BYTES + 1, 2 * ENTRY_BYTES - 1] {
        let mut recorder = Recorder::start(fresh(), Filling(room)).expect("right sizes");
        let answer = recorder.settle(&grant(1)).expect("there is room for one");
        assert_eq!(answer, Answer::Settled(0));
        match recorder.settle(&grant(2)) {
            Err(Unrecorded::Unwritten { answer, error }) => {
                assert_eq!(answer, Answer::Settled(0));
                assert_eq!(error.to_string(), "the disk is full");
            }
            other => panic!("{other:?}"),
        }
        assert_eq!(recorder.ledger().granted_total(), 10, "it settled");
        let stopped = recorder.settle(&grant(3));
        assert!(matches!(stopped, Err(Unrecorded::Stopped)), "{stopped:?}");
        assert_eq!(recorder.ledger().granted_total(), 10, "nothing more did");
    }
}

/// Keeps what it is given a few bytes at a time, and fails when it is to be flushed.
#[derive(Default)]
struct Unplugged(Vec<u8>);

impl Write for Unplugged {
    fn write(&mut self, bytes: &[u8]) -> io::Result<usize> {
        self.0.write(&bytes[..bytes.len().min(50)])
    }

    fn flush(&mut self) -> io::Result<()> {
        Err(io::Error::new(io::ErrorKind::Other, "unplugged"))
    }
}

#[test]
fn a_flush_that_fails_is_no_answer_either() {
    let mut recorder = Recorder::start(fresh(), Unplugged::default()).expect("right sizes");
    let answer = recorder
        .settle(&grant(1))
        .map_err(|error| error.to_string());
    let said = "the recording could not be written: unplugged";
    assert_eq!(answer, Err(said.to_owned()));
    assert!(matches!(
        recorder.settle(&grant(2)),
        Err(Unrecorded::Stopped)
    ));

    // the entry is there all the same: the same nonce is refused, and another would settle again
    let (_, Unplugged(mut log)) = recorder.into_parts();
    let mut ledger = fresh();
    let found = ledger.replay(&log);
    assert_eq!(found, Ok(Replay::AllAgree { entries: 1 }));
    let mut recorder = Recorder::resume(ledger, &mut log);
    let again = recorder.settle(&grant(1)).expect("written");
    assert_eq!(again, Answer::Refused(Refusal::NonceSeen));
    assert_eq!(recorder.ledger().granted_total(), 5, "it settled once");
    assert_eq!(
        recorder.settle(&grant(2)).expect("written"),
        Answer::Settled(0)
    );
    assert_eq!(recorder.ledger().granted_total(), 10, "and twice");
}

#[test]
fn a_recorder_starts_afresh() {
    let mut ledger = fresh();
    assert!(ledger.settle(&grant(1)).is_settled());
    let mut log = Vec::new();
    let mut recorder = Recorder::start(ledger, &mut log).expect("right sizes");
    assert_eq!(recorder.ledger().granted_total(), 0);
    assert_eq!(recorder.settle(&grant(1)).ok(), Some(Answer::Settled(0)));
    let found = fresh().replay(&log);
    assert_eq!(found, Ok(Replay::AllAgree { entries: 1 }));
}

#[test]
fn fields_without_a_record_are_recorded_as_they_were_submitted() {
    let mut log = Vec::new();
    let mut recorder = Recorder::start(fresh(), &mut log).expect("right sizes");
    let nobody = Submission::transfer(Envelope::new(NOW, 0, 1), 8, 5);
    let malformed = Answer::Refused(Refusal::MalformedRecord);
    assert_eq!(recorder.settle(&nobody).ok(), Some(malformed));
    let found = fresh().replay(&log);
    assert_eq!(found, Ok(Replay::AllAgree { entries: 1 }));
}

#[test]
fn a_recording_goes_on_behind_a_cut_entry() {
    let mut log = Vec::new();
    let mut recorder = Recorder::start(fresh(), &mut log).expect("right sizes");
    for nonce in 1..=3 {
        let _ = recorder.settle(&grant(nonce)).expect("written");
    }
    log.truncate(3 * ENTRY_BYTES - 1);

    // on borrowed tables, as a host has them
    let mut tables = Tables::zeros(Sizes::PROGRAM);
    let mut ledger = Ledger::over(tables.as_mut());
    assert_eq!(ledger.replay(&log), Ok(Replay::CutShort { agreed: 2 }));
    let mut recording = Recording::from(log);
    assert_eq!(recording.drop_cut().len(), ENTRY_BYTES - 1);
    let mut log = recording.into_bytes();
    let mut recorder = Recorder::resume(ledger, &mut log);
    let answers = [2, 3].map(|nonce| recorder.settle(&grant(nonce)).expect("written"));
    let seen = Answer::Refused(Refusal::NonceSeen);
    assert_eq!(answers, [seen, Answer::Settled(0)]);

    let mut replayed = fresh();
    let found = replayed.replay(&log);
    assert_eq!(found, Ok(Replay::AllAgree { entries: 4 }));
    assert_eq!(replayed.into_tables(), tables);
}
