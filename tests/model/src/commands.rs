//! Command octets: the tests they pass, and what they do.

use crate::state::{Drive, Mode, Phase, Unit, LATE_BLOCKS, LATE_ROOM, ROOM};
use crate::tape::MARK;

/// The known codes.
pub const SELECT: [u8; 4] = [0x01, 0x02, 0x04, 0x08];
pub const BOT: u8 = 0x21;
pub const ERASE: u8 = 0x22;
pub const INITIALIZATION: u8 = 0x24;
pub const WRITE: u8 = 0x40;
pub const WRITE_FILE_MARK: u8 = 0x60;
pub const READ: u8 = 0x80;
pub const READ_FILE_MARK: u8 = 0xA0;
pub const READ_STATUS: u8 = 0xC0;

/// The commands that are built.
#[derive(Clone, Copy, PartialEq, Eq, Debug)]
pub enum Command {
    Select(u8),
    Bot,
    Erase,
    Initialization,
    Write,
    WriteFileMark,
    Read,
    ReadFileMark,
    ReadStatus,
}

use Command::*;

/// Why a command is not carried out.
enum Objection {
    Illegal,
    NoCartridge,
    Protected,
    NoRoom,
}

impl Command {
    /// The command an octet stands for, if it is a known code.
    pub fn of(octet: u8) -> Option<Command> {
        Some(match octet {
            BOT => Bot,
            ERASE => Erase,
            INITIALIZATION => Initialization,
            WRITE => Write,
            WRITE_FILE_MARK => WriteFileMark,
            READ => Read,
            READ_FILE_MARK => ReadFileMark,
            READ_STATUS => ReadStatus,
            _ => Select(SELECT.iter().position(|&code| code == octet)? as u8),
        })
    }

    /// May it come while the drive is in this mode?
    fn in_sequence(self, mode: Mode) -> bool {
        match mode {
            Mode::Idle => true,
            Mode::Writing => matches!(self, WriteFileMark | ReadStatus),
            Mode::Reading => matches!(self, ReadFileMark | ReadStatus),
        }
    }

    /// How much tape must be left ahead of the head.
    fn room(self) -> u64 {
        match self {
            // Where this is all, the WRITE is a late one.
            Write => LATE_ROOM,
            WriteFileMark => 1,
            _ => 0,
        }
    }

    fn needs_online(self) -> bool {
        matches!(self, Write | Read | WriteFileMark | ReadFileMark)
    }

    fn needs_cartridge(self) -> bool {
        !matches!(self, Select(_) | ReadStatus)
    }

    fn needs_open_plug(self) -> bool {
        matches!(self, Erase | Write | WriteFileMark)
    }
}

impl Unit {
    /// A command octet at Rest. Says if EXCEPTION was raised.
    pub(crate) fn command(&mut self, tape: &mut [u8], octet: u8) -> bool {
        match self.judge(octet, tape.len() as u64) {
            Ok(command) => self.carry_out(command, tape),
            Err(objection) => {
                let at = self.at();
                self.drives[at].object(objection);
                true
            }
        }
    }

    /// The seven tests; the first that fits decides.
    fn judge(&self, octet: u8, length: u64) -> Result<Command, Objection> {
        let drive = self.drive();
        let known = Command::of(octet);
        if drive.exception && known != Some(ReadStatus) {
            return Err(Objection::Illegal);
        }
        let command = known.ok_or(Objection::Illegal)?;
        if !command.in_sequence(drive.mode) {
            return Err(Objection::Illegal);
        }
        if command.needs_online() && !self.online {
            return Err(Objection::Illegal);
        }
        if command.needs_cartridge() && !drive.loaded {
            return Err(Objection::NoCartridge);
        }
        if command.needs_open_plug() && drive.protected {
            return Err(Objection::Protected);
        }
        if command.room() > 0 && drive.head + command.room() > length {
            return Err(Objection::NoRoom);
        }
        Ok(command)
    }

    /// A command that passed. Says if it raised EXCEPTION.
    fn carry_out(&mut self, command: Command, tape: &mut [u8]) -> bool {
        let at = self.at();
        let drive = &mut self.drives[at];
        match command {
            Select(number) => self.selected = number as u64,
            Bot | Initialization => drive.head = 0,
            Erase => {
                tape.fill(0);
                drive.head = 0;
            }
            Write => drive.begin_writing(tape.len() as u64),
            Read => {
                drive.mode = Mode::Reading;
                return drive.edge_check(tape);
            }
            WriteFileMark => {
                drive.record(tape, &[MARK]);
                drive.finish();
            }
            ReadFileMark => {
                drive.read_file_mark(tape);
                return true;
            }
            ReadStatus => {
                self.octets = drive.report();
                self.phase = Phase::Status(6);
            }
        }
        false
    }
}

impl Drive {
    /// WRITE: an ordinary one, or where the room for that is gone a late one.
    fn begin_writing(&mut self, length: u64) {
        self.mode = Mode::Writing;
        self.late = if self.head + ROOM <= length { 0 } else { LATE_BLOCKS };
    }

    /// Raises EXCEPTION for a command that is not carried out, and latches why.
    fn object(&mut self, objection: Objection) {
        self.exception = true;
        match objection {
            Objection::Illegal => self.latched.ill = true,
            Objection::NoCartridge => self.latched.cni = true,
            // The plug shows by itself as WRP.
            Objection::Protected => {}
            Objection::NoRoom => self.end_of_medium(),
        }
    }
}
