//! The records of the unit and of a drive, fresh and after RESET.

/// Bytes of data in a block.
pub const BLOCK: u64 = 512;
/// Room that an ordinary WRITE and its blocks ask for: one block, and what is kept past early
/// warning.
pub const ROOM: u64 = 1541;
/// Room that a late WRITE and its blocks ask for: one block, and one byte behind it.
pub const LATE_ROOM: u64 = 514;
/// Blocks that a late WRITE may take.
pub const LATE_BLOCKS: u8 = 2;
/// The longest tape, and so the furthest head.
pub const LONGEST: u64 = 16_777_216;

/// What a drive is doing.
#[derive(Clone, Copy, PartialEq, Eq, Debug)]
pub enum Mode {
    Idle,
    Writing,
    Reading,
}

/// Where the cable stands; the numbers are open to any value so that bad records can be set.
#[derive(Clone, Copy, PartialEq, Eq, Debug)]
pub enum Phase {
    Rest,
    /// So many bytes of a block were given by the host.
    Taking(u64),
    /// So many bytes of a block were taken by the host.
    Giving(u64),
    /// So many octets are still to go out.
    Status(u64),
}

/// The status bits that stay until they are reported.
#[derive(Clone, Copy, PartialEq, Eq, Debug, Default)]
pub struct Latched {
    pub cni: bool,
    pub eom: bool,
    pub ude: bool,
    pub bnl: bool,
    pub fil: bool,
    pub ill: bool,
    pub ndt: bool,
    pub por: bool,
}

/// One drive.
#[derive(Clone, PartialEq, Eq, Debug)]
pub struct Drive {
    pub loaded: bool,
    pub protected: bool,
    pub head: u64,
    pub mode: Mode,
    /// Late blocks still allowed; 0 outside a late WRITE.
    pub late: u8,
    pub exception: bool,
    pub latched: Latched,
    pub errors: u16,
    pub underruns: u16,
}

/// The unit: four drives, and what they share.
#[derive(Clone, PartialEq, Eq, Debug)]
pub struct Unit {
    pub selected: u64,
    pub online: bool,
    pub phase: Phase,
    pub staging: [u8; BLOCK as usize],
    pub octets: [u8; 6],
    pub drives: [Drive; 4],
}

impl Drive {
    /// A drive as it is when power comes.
    pub fn fresh() -> Drive {
        Drive {
            loaded: false,
            protected: false,
            head: 0,
            mode: Mode::Idle,
            late: 0,
            exception: true,
            latched: Latched { por: true, ..Latched::default() },
            errors: 0,
            underruns: 0,
        }
    }

    /// RESET makes a drive fresh, but the cartridge and its plug stay where they are.
    pub(crate) fn reset(&mut self) {
        *self = Drive { loaded: self.loaded, protected: self.protected, ..Drive::fresh() };
    }

    /// Ends whatever transfer was going on; no late block is allowed after it.
    pub(crate) fn finish(&mut self) {
        self.mode = Mode::Idle;
        self.late = 0;
    }

    /// The same, and raises EXCEPTION.
    pub(crate) fn stop(&mut self) {
        self.finish();
        self.exception = true;
    }
}

impl Unit {
    /// The unit as it is when power comes.
    pub fn fresh() -> Unit {
        Unit {
            selected: 0,
            online: false,
            phase: Phase::Rest,
            staging: [0; BLOCK as usize],
            octets: [0; 6],
            drives: std::array::from_fn(|_| Drive::fresh()),
        }
    }

    /// RESET; the ONLINE level, staging and octets are not among what it names.
    pub(crate) fn reset(&mut self) {
        self.selected = 0;
        self.phase = Phase::Rest;
        self.drives.iter_mut().for_each(Drive::reset);
    }

    /// The selected drive, if the number is one of a drive at all.
    pub(crate) fn selected_drive(&self) -> Option<&Drive> {
        self.drives.get(usize::try_from(self.selected).ok()?)
    }

    /// Index of the selected drive; only asked of records that are possible.
    pub(crate) fn at(&self) -> usize {
        self.selected as usize
    }

    /// The selected drive.
    pub(crate) fn drive(&self) -> &Drive {
        &self.drives[self.at()]
    }
}
