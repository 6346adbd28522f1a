//! Names for what is wrong with a record.

use crate::state::{Mode, Phase, Unit, LATE_BLOCKS, LONGEST};

/// What can be wrong with a record, alone.
pub const FAULTS: [&str; 17] = [
    "selected above 3",
    "head too far",
    "no such place given",
    "no such place taken",
    "no such number of octets",
    "part block given, not Writing",
    "part block taken, not Reading",
    "plug without a cartridge",
    "mode without a cartridge",
    "Writing on a protected cartridge",
    "head too far, not selected",
    "mode without a cartridge, not selected",
    "Writing on a protected cartridge, not selected",
    "more than two late blocks",
    "more than two late blocks, not selected",
    "late blocks outside Writing",
    "late blocks outside Writing, not selected",
];

/// All that is wrong with a record.
pub fn faults(unit: &Unit) -> Vec<&'static str> {
    let mut faults = Vec::new();
    let mut fault = |wrong: bool, name| {
        if wrong {
            faults.push(name);
        }
    };
    let mode = unit.drives.get(unit.selected.min(4) as usize).map(|drive| drive.mode);
    fault(mode.is_none(), FAULTS[0]);
    match unit.phase {
        Phase::Rest => {}
        Phase::Taking(n) => {
            fault(n == 0 || n > 511, FAULTS[2]);
            fault(mode.is_some_and(|mode| mode != Mode::Writing), FAULTS[5]);
        }
        Phase::Giving(n) => {
            fault(n == 0 || n > 511, FAULTS[3]);
            fault(mode.is_some_and(|mode| mode != Mode::Reading), FAULTS[6]);
        }
        Phase::Status(k) => fault(k == 0 || k > 6, FAULTS[4]),
    }
    for (at, drive) in unit.drives.iter().enumerate() {
        let own = unit.selected == at as u64;
        let name = |place: usize, other: usize| FAULTS[if own { place } else { other }];
        fault(drive.head > LONGEST, name(1, 10));
        fault(!drive.loaded && drive.protected, FAULTS[7]);
        fault(!drive.loaded && drive.mode != Mode::Idle, name(8, 11));
        let writing = drive.mode == Mode::Writing;
        fault(drive.loaded && drive.protected && writing, name(9, 12));
        fault(drive.late > LATE_BLOCKS, name(13, 14));
        fault(drive.late > 0 && !writing, name(15, 16));
    }
    faults
}

#[cfg(test)]
mod tests {
    use super::*;
    use crate::compare::random::Random;
    use crate::compare::records::{any_tapes, any_unit};

    #[test]
    fn a_record_is_impossible_exactly_where_something_is_wrong_with_it() {
        let mut random = Random::new(31);
        let tapes = any_tapes(&mut random);
        for _ in 0..100_000 {
            let unit = any_unit(&mut random, &tapes);
            assert_eq!(unit.impossible(), !faults(&unit).is_empty(), "{unit:?}");
        }
    }
}
