//! Records that cannot be: every way that the documents list, alone and together.

use super::parts::{fitting_late, Act, Setting};
use super::possible::lend_any;
use super::{events, Index};
use crate::compare::random::Random;
use crate::probe::frame::Frame;
use crate::state::{Drive, Mode, Phase, LONGEST};
use std::sync::OnceLock;

/// One thing that cannot be.
#[derive(Clone, Copy)]
enum Fault {
    Selected(u64),
    Head(usize, u64),
    /// A phase, and the mode that the selected drive has.
    Phase(Phase, Mode),
    /// What a drive is said to be: loaded, protected, and its mode.
    Drive(usize, bool, bool, Mode),
    /// A mode of a drive, and late blocks that cannot be allowed in it.
    Late(usize, Mode, u8),
}

/// Numbers that are small in their low bytes and large all the same.
const HUGE: [u64; 7] =
    [256, 65_536, 1 << 24, 1 << 32, 1 << 40, 1 << 56, u64::MAX - u64::MAX % 256 - 256];

fn all() -> &'static [Fault] {
    static ALL: OnceLock<Vec<Fault>> = OnceLock::new();
    ALL.get_or_init(|| {
        let selected = [4, 5, 7, 8, 16, 32, 64, 128, 252, 255];
        let mut all: Vec<Fault> = selected.map(Fault::Selected).to_vec();
        for n in [0, 512, 513, 767, u64::MAX].into_iter().chain(HUGE.map(|huge| huge + 511)) {
            all.push(Fault::Phase(Phase::Taking(n), Mode::Writing));
            all.push(Fault::Phase(Phase::Giving(n), Mode::Reading));
        }
        for k in [0, 7, 8, 255, u64::MAX].into_iter().chain(HUGE.map(|huge| huge + 6)) {
            all.push(Fault::Phase(Phase::Status(k), Mode::Idle));
        }
        for n in [1, 2, 510, 511] {
            all.extend([Mode::Idle, Mode::Reading].map(|m| Fault::Phase(Phase::Taking(n), m)));
            all.extend([Mode::Idle, Mode::Writing].map(|m| Fault::Phase(Phase::Giving(n), m)));
        }
        (0..4).for_each(|at| all.extend(of_drive(at).chain(late_in(at))));
        all
    })
}

/// What cannot be of one drive.
fn of_drive(at: usize) -> impl Iterator<Item = Fault> {
    let heads = [LONGEST + 1, LONGEST + 2, LONGEST + 513, u64::MAX - 513, u64::MAX - 512, u64::MAX];
    let far = [LONGEST << 8, 1 << 32, 1 << 40, (1 << 63) + 1];
    heads.into_iter().chain(far).map(move |head| Fault::Head(at, head)).chain([
        Fault::Drive(at, false, true, Mode::Idle),
        Fault::Drive(at, false, false, Mode::Writing),
        Fault::Drive(at, false, false, Mode::Reading),
        Fault::Drive(at, true, true, Mode::Writing),
    ])
}

/// Late blocks that cannot be of one drive: too many in Writing, any outside it.
fn late_in(at: usize) -> impl Iterator<Item = Fault> {
    let many = [3, 4, 5, 6, 127, 128, 129, 130, 254, 255];
    let any = [1, 2].into_iter().flat_map(|late| [(Mode::Idle, late), (Mode::Reading, late)]);
    let many = many.into_iter().map(|late| (Mode::Writing, late));
    many.chain(any).map(move |(mode, late)| Fault::Late(at, mode, late))
}

/// Puts a fault in a record.
fn put(fault: Fault, setting: &mut Setting) {
    match fault {
        Fault::Selected(number) => setting.unit.selected = number,
        Fault::Head(at, head) => setting.unit.drives[at].head = head,
        Fault::Phase(phase, mode) => {
            let head = setting.drive().head;
            setting.ready(Act(mode, phase, &[]), head);
        }
        Fault::Drive(at, loaded, protected, mode) => {
            let drive = &mut setting.unit.drives[at];
            let late = fitting_late(mode, drive.late);
            *drive = Drive { loaded, protected, mode, late, ..drive.clone() };
        }
        Fault::Late(at, mode, late) => {
            let drive = &mut setting.unit.drives[at];
            let open = Drive { loaded: true, protected: false, ..drive.clone() };
            *drive = Drive { mode, late, ..open };
        }
    }
}

/// Puts any fault in a record.
pub fn any(random: &mut Random, setting: &mut Setting) {
    put(random.pick(all()), setting);
}

/// Every fault alone, with every form of event.
pub fn one(random: &mut Random, index: &mut Index, frames: &mut Vec<Frame>) {
    let fault = index.of(all());
    let event = index.of(events::forms());
    let mut setting = Setting::new(random);
    lend_any(random, &mut setting);
    put(fault, &mut setting);
    frames.push(setting.with(&event));
}

/// Two to four faults, with any event.
pub fn several(random: &mut Random, _: &mut Index, frames: &mut Vec<Frame>) {
    let mut setting = Setting::new(random);
    lend_any(random, &mut setting);
    (0..random.among(2..5)).for_each(|_| any(random, &mut setting));
    let event = events::any(random);
    frames.push(setting.with(&event));
}
