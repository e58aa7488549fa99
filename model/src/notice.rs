//! The notice sheet and its records ("Notice sheet", "Records").

use crate::error_state::ErrorCounts;
use crate::limits::RECORD_WORDS;
use crate::mode::Mode;
use crate::outcome::{Reason, Service};

/// One record; `words` gives its four words.
#[derive(Clone, Copy, Debug, PartialEq, Eq)]
pub enum Notice {
    Confirmed { object: usize, handle: u16 },
    Received { object: usize, identifier: u32, length: u8 },
    Mode { controller: usize, mode: Mode },
    BusOff { controller: usize },
    DevelopmentError { service: Service, error: Reason },
    DataLost { object: usize },
    Cancelled { object: usize, handle: u16 },
    ErrorPassive { controller: usize, counts: ErrorCounts },
}

impl Notice {
    /// The table of records, row by row.
    pub fn words(self) -> [u32; RECORD_WORDS] {
        match self {
            Notice::Confirmed { object, handle } => [1, object as u32, handle.into(), 0],
            Notice::Received { object, identifier, length } => {
                [2, object as u32, identifier, length.into()]
            }
            Notice::Mode { controller, mode } => [3, controller as u32, mode.number(), 0],
            Notice::BusOff { controller } => [4, controller as u32, 0, 0],
            Notice::DevelopmentError { service, error } => [5, service.number(), error.number(), 0],
            Notice::DataLost { object } => [6, object as u32, 1, 0],
            Notice::Cancelled { object, handle } => [7, object as u32, handle.into(), 0],
            Notice::ErrorPassive { controller, counts } => {
                let told = counts.told();
                [8, controller as u32, told.transmit, told.receive]
            }
        }
    }
}

/// Writes records from word 0 on; words after them keep their values.
pub struct Notices<'a> {
    sheet: &'a mut [u32],
    records: usize,
}

impl<'a> Notices<'a> {
    /// Starts at word 0 of a sheet that is known to be long enough.
    pub fn on(sheet: &'a mut [u32]) -> Notices<'a> {
        Notices { sheet, records: 0 }
    }

    /// Writes the next record.
    pub fn push(&mut self, notice: Notice) {
        let at = self.records * RECORD_WORDS;
        self.sheet[at..at + RECORD_WORDS].copy_from_slice(&notice.words());
        self.records += 1;
    }

    /// How many records were written.
    pub fn count(&self) -> usize {
        self.records
    }
}
