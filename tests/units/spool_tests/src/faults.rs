//! Faults, as the scripts spell them.
use disk_cell::{LoadFault, SetFault};
use spool_answers::{ConfirmFault, TakeFault};
use spool_log::{FormatFault, RecoverFault};
use spool_slots::{ScanFault, SlotFault};
use std::alloc::Global;
use std::process::Abort;

/// The words of a fault: its name, and each of its numbers after the name of the field.
#[derive(Clone, Copy)]
pub(crate) enum Spelling {
    Plain(&'static str),
    One(&'static str, &'static str, u64),
    Two(&'static str, (&'static str, u64), (&'static str, u64)),
}

/// A fault that scripts spell.
pub(crate) trait Spelled {
    /// Its words.
    fn spelling(&self) -> Spelling;
}

/// A fault as text: `NoMemory`, `NotSpool { at: 8 }`, `Full { need: 9, room: 8 }`.
pub(crate) fn fault_text(rt: &impl Abort, alloc: Global, fault: &impl Spelled) -> String {
    let text = match fault.spelling() {
        Spelling::Plain(name) => String::from_str(alloc, name),
        Spelling::One(name, field, number) => {
            format!(in alloc; "{name} {{ {field}: {number} }}")
        }
        Spelling::Two(name, (field, number), (other, last)) => {
            format!(in alloc; "{name} {{ {field}: {number}, {other}: {last} }}")
        }
    };
    text.expect(rt, "memory")
}

const NO_MEMORY: Spelling = Spelling::Plain("NoMemory");

const DISK_FAULT: Spelling = Spelling::Plain("DiskFault");

fn not_spool(at: u64) -> Spelling {
    Spelling::One("NotSpool", "at", at)
}

fn worn(ordinal: u64) -> Spelling {
    Spelling::One("Worn", "ordinal", ordinal)
}

impl Spelled for SetFault {
    fn spelling(&self) -> Spelling {
        match *self {
            SetFault::Worn { ordinal } => worn(ordinal),
            SetFault::DiskFault => DISK_FAULT,
        }
    }
}

impl Spelled for LoadFault {
    fn spelling(&self) -> Spelling {
        match *self {
            LoadFault::NotSpool { at } => not_spool(at),
            LoadFault::NoMemory => NO_MEMORY,
            LoadFault::DiskFault => DISK_FAULT,
        }
    }
}

impl Spelled for SlotFault {
    fn spelling(&self) -> Spelling {
        match *self {
            SlotFault::NoRoom { need, room } => {
                Spelling::Two("NoRoom", ("need", need), ("room", room))
            }
            SlotFault::DiskFault => DISK_FAULT,
        }
    }
}

impl Spelled for ScanFault {
    fn spelling(&self) -> Spelling {
        match *self {
            ScanFault::NotSpool { at } => not_spool(at),
            ScanFault::DiskFault => DISK_FAULT,
            ScanFault::NoMemory => NO_MEMORY,
        }
    }
}

impl Spelled for FormatFault {
    fn spelling(&self) -> Spelling {
        match *self {
            FormatFault::WrongLength { have, want } => {
                Spelling::Two("WrongLength", ("have", have), ("want", want))
            }
            FormatFault::DiskFault => DISK_FAULT,
        }
    }
}

impl Spelled for TakeFault {
    fn spelling(&self) -> Spelling {
        match *self {
            TakeFault::TooLarge { need, most } => {
                Spelling::Two("TooLarge", ("need", need), ("most", most))
            }
            TakeFault::Spent { end } => Spelling::One("Spent", "end", end),
            TakeFault::Full { need, room } => {
                Spelling::Two("Full", ("need", need), ("room", room))
            }
            TakeFault::NotSpool { at } => not_spool(at),
            TakeFault::NoMemory => NO_MEMORY,
            TakeFault::DiskFault => DISK_FAULT,
        }
    }
}

impl Spelled for ConfirmFault {
    fn spelling(&self) -> Spelling {
        match *self {
            ConfirmFault::Worn { ordinal } => worn(ordinal),
            ConfirmFault::NotSpool { at } => not_spool(at),
            ConfirmFault::DiskFault => DISK_FAULT,
            ConfirmFault::NoMemory => NO_MEMORY,
        }
    }
}

impl Spelled for RecoverFault {
    fn spelling(&self) -> Spelling {
        match *self {
            RecoverFault::NotSpool { at } => not_spool(at),
            RecoverFault::RunsSpent { run } => Spelling::One("RunsSpent", "run", u64::from(run)),
            RecoverFault::Worn { ordinal } => worn(ordinal),
            RecoverFault::DiskFault => DISK_FAULT,
            RecoverFault::NoMemory => NO_MEMORY,
        }
    }
}
