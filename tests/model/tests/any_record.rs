//! The model is total, and what it refuses it leaves alone, whatever the record and the tapes.

use model::commands::{READ_STATUS, WRITE};
use model::compare::random::Random;
use model::compare::records::{any_event, any_tapes, any_unit};
use model::{Answer, Lines, Mode, Outcome, Phase, Tapes, Unit};

/// One event: record and tapes before it, and all that came of it.
struct Step {
    before: Unit,
    lent: Tapes,
    event: Vec<u8>,
    outcome: Outcome,
    unit: Unit,
    tapes: Tapes,
}

/// Looks at 200,000 steps of any event in any record over any tapes.
fn each_step(seed: u64, mut look: impl FnMut(&Step)) {
    let mut random = Random::new(seed);
    for _ in 0..40 {
        let lent = any_tapes(&mut random);
        for _ in 0..5_000 {
            let mut tapes = lent.clone();
            let before = any_unit(&mut random, &tapes);
            let event = any_event(&mut random);
            let mut unit = before.clone();
            let outcome = unit.step(&mut tapes, &event);
            look(&Step { before, lent: lent.clone(), event, outcome, unit, tapes });
        }
    }
}

#[test]
fn every_event_in_every_record_has_an_outcome_that_keeps_to_the_frame() {
    let mut seen = [0; 7];
    each_step(20, |Step { before, lent, event, outcome, unit, tapes }| {
        seen[outcome.answer as usize] += 1;
        let refused = !outcome.answer.is_taken();
        assert_eq!(before.impossible(), outcome.answer == Answer::ImpossibleRecord);
        assert!(!refused || (unit == before && tapes == lent && outcome.byte.is_none()));
        assert!(refused || !unit.impossible());
        assert!(outcome.byte.is_none() || event == &[0x03]);
        let five = outcome.answer == Answer::ImpossibleRecord;
        assert_eq!(outcome.lines, if five { Lines::default() } else { unit.lines() });
        for at in 0..4 {
            assert_eq!(tapes[at].len(), lent[at].len());
            assert!(tapes[at] == lent[at] || before.selected == at as u64);
        }
    });
    // All answers came but 6, which needs tapes too long to make so often.
    assert!(seen[..6].iter().all(|&count| count > 1_000), "{seen:?}");
}

#[test]
fn bnl_comes_with_ude_exactly_where_the_head_is_left_at_an_unknown_kind() {
    let mut came = [0; 2];
    each_step(21, |Step { before, event, outcome, unit, tapes, .. }| {
        let clears = event == &[0x06] || event == &[0x01, READ_STATUS];
        if outcome.answer == Answer::ImpossibleRecord || clears {
            return;
        }
        for (at, drive) in unit.drives.iter().enumerate() {
            let (old, new) = (before.drives[at].latched, drive.latched);
            let kind = tapes[at].get(drive.head as usize);
            let unknown = kind.is_some_and(|kind| *kind > 0x02);
            if !old.ude {
                assert_eq!(new.bnl, old.bnl || new.ude && unknown);
                came[unknown as usize] += new.ude as usize;
            }
            assert!(new.bnl || !old.bnl);
            assert!(before.selected == at as u64 || (old.ude, old.bnl) == (new.ude, new.bnl));
        }
    });
    assert!(came.iter().all(|&count| count > 500), "{came:?}");
}

#[test]
fn late_is_set_by_write_counted_by_blocks_and_ended_with_the_mode() {
    let mut came = [0; 4];
    each_step(22, |Step { before, event, outcome, unit, tapes, .. }| {
        if outcome.answer == Answer::ImpossibleRecord {
            return;
        }
        for (at, drive) in unit.drives.iter().enumerate() {
            let old = &before.drives[at];
            let own = before.selected == at as u64;
            let wrote = own && event == &[0x01, WRITE] && outcome.answer == Answer::Taken;
            let last = own && before.phase == Phase::Taking(511) && event.first() == Some(&0x02);
            let recorded = last && drive.head != old.head;
            let room = (tapes[at].len() as u64).saturating_sub(old.head);
            let (case, late) = match (drive.mode, wrote, recorded) {
                (Mode::Idle | Mode::Reading, _, _) => (0, 0),
                (_, true, _) => (1, if room >= 1541 { 0 } else { 2 }),
                (_, _, true) => (2, old.late.saturating_sub(1)),
                _ => (3, old.late),
            };
            assert_eq!(drive.late, late);
            came[case] += (late > 0 || old.late > 0) as usize;
        }
    });
    assert!(came.iter().all(|&count| count > 20), "{came:?}");
}

#[test]
fn a_512th_byte_ends_the_writing_exactly_where_the_documents_say() {
    let mut came = [[0; 2]; 2];
    each_step(23, |Step { before, lent, event, outcome, unit, .. }| {
        if !outcome.answer.is_taken()
            || before.phase != Phase::Taking(511)
            || event.first() != Some(&0x02)
        {
            return;
        }
        let at = before.selected as usize;
        let (old, new) = (&before.drives[at], &unit.drives[at]);
        let room = lent[at].len() as i64 - old.head as i64;
        let late = old.late > 0;
        let asked = if late { 514 } else { 1541 };
        let recorded = room >= asked;
        let ended = !recorded || room - 513 < asked || old.late == 1;
        assert_eq!(new.head - old.head, if recorded { 513 } else { 0 });
        assert_eq!(outcome.answer == Answer::Exception, ended);
        assert_eq!((new.mode == Mode::Idle, new.late == 0), (ended, ended || !late));
        came[late as usize][ended as usize] += 1;
    });
    assert!(came.iter().flatten().all(|&count| count > 20), "{came:?}");
}
