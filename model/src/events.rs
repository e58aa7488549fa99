//! The bench events ("Bench events"; 02, Q-5). An event writes no record of kind 5.

use crate::config::{Kind, ObjectConfig};
use crate::error_state::{ErrorCounts, ErrorState};
use crate::filter;
use crate::identifier::Identifier;
use crate::length;
use crate::mailbox::Frame;
use crate::mode::Mode;
use crate::notice::{Notice, Notices};
use crate::outcome::{Outcome, Reason};
use crate::state::{check_memory, check_sheet, State};

/// The three ways in which an arrival ends.
#[derive(Clone, Copy, Debug, PartialEq, Eq)]
pub enum Arrival {
    /// Stored in the object with this number.
    Stored(u32),
    /// No object fits.
    Unwanted,
    /// All that fit are full.
    Lost,
}

impl State {
    /// Sent: marks the object gone. Takes neither sheet nor memory.
    pub fn sent(&mut self, object: u32) -> Outcome<()> {
        Outcome::silent(self.try_sent(object))
    }

    /// 41, then 5, 2, 38, 37.
    fn try_sent(&mut self, object: u32) -> Result<(), Reason> {
        self.check_sound()?;
        self.check_initialised()?;
        let config = self.check_sending(object)?;
        let place = &mut self.objects[object as usize];
        if !place.occupied || place.gone {
            return Err(Reason::NothingUnsent);
        }
        if self.controllers[usize::from(config.controller)].off_bus {
            return Err(Reason::OffBus);
        }
        place.gone = true;
        Ok(())
    }

    /// Bus-off: sets the mark. Takes neither sheet nor memory.
    pub fn bus_off(&mut self, controller: u32) -> Outcome<()> {
        Outcome::silent(self.try_bus_off(controller))
    }

    /// 41, then 5, 4, 35, 37.
    fn try_bus_off(&mut self, controller: u32) -> Result<(), Reason> {
        self.check_sound()?;
        let controller = self.check_on_bus(controller)?;
        self.controllers[controller].off_bus = true;
        Ok(())
    }

    /// Error counts: sets both, and the off-bus mark where they lead off the bus.
    /// Entering passive from active writes a record. Takes the sheet only.
    pub fn error_counts(
        &mut self,
        controller: u32,
        counts: ErrorCounts,
        sheet: &mut [u32],
    ) -> Outcome<()> {
        let controller = match self.judge_counts(controller, counts, sheet) {
            Ok(controller) => controller,
            Err(reason) => return Outcome::silent(Err(reason)),
        };
        let place = &mut self.controllers[controller];
        let before = place.error_state();
        place.errors = counts;
        place.off_bus = counts.state() == ErrorState::BusOff;
        let mut notices = Notices::on(sheet);
        if (before, place.error_state()) == (ErrorState::Active, ErrorState::Passive) {
            notices.push(Notice::ErrorPassive { controller, counts });
        }
        Outcome { result: Ok(()), records: notices.count() }
    }

    /// 41, 32, then 5, 4, 35, 37, 43; else the controller as a place number.
    fn judge_counts(
        &self,
        controller: u32,
        counts: ErrorCounts,
        sheet: &[u32],
    ) -> Result<usize, Reason> {
        self.check_sound()?;
        check_sheet(sheet)?;
        let controller = self.check_on_bus(controller)?;
        counts.can_be_counted().then_some(controller).ok_or(Reason::ErrorCount)
    }

    /// Arrived: the frame is stored, unwanted or lost.
    pub fn arrived(
        &mut self,
        controller: u32,
        identifier: Identifier,
        data: &[u8],
        sheet: &mut [u32],
        memory: &mut [u8],
    ) -> Outcome<Arrival> {
        match self.judge_arrival(controller, identifier, data, sheet, memory) {
            Ok((controller, frame)) => self.take_in(controller, &frame, sheet, memory),
            Err(reason) => Outcome::silent(Err(reason)),
        }
    }

    /// 41, 32, 33, then 5, 4, 35, 37, 34, 40; else the frame as it will lie in
    /// memory, handle zero, and its controller.
    fn judge_arrival<'a>(
        &self,
        controller: u32,
        identifier: Identifier,
        data: &'a [u8],
        sheet: &[u32],
        memory: &[u8],
    ) -> Result<(usize, Frame<'a>), Reason> {
        self.check_sound()?;
        check_sheet(sheet)?;
        check_memory(memory)?;
        let controller = self.check_on_bus(controller)?;
        if !identifier.is_good() {
            return Err(Reason::Identifier);
        }
        let wire = length::arriving(identifier.is_fd(), data.len()).ok_or(Reason::WireLength)?;
        Ok((controller, Frame { identifier, wire, handle: 0, data, padding: 0 }))
    }

    /// Stores the frame in the lowest-numbered empty object that fits. If all
    /// that fit are full, the lowest that fits is named in a runtime record.
    fn take_in(
        &mut self,
        controller: usize,
        frame: &Frame,
        sheet: &mut [u32],
        memory: &mut [u8],
    ) -> Outcome<Arrival> {
        let mut lowest = None;
        for (object, config) in self.config.objects().iter().enumerate() {
            if !fits(config, controller, frame.identifier) {
                continue;
            }
            let place = &mut self.objects[object];
            if !place.full {
                place.full = true;
                frame.lay_down(memory, object);
                return Outcome::silent(Ok(Arrival::Stored(object as u32)));
            }
            lowest.get_or_insert(object);
        }
        let Some(object) = lowest else {
            return Outcome::silent(Ok(Arrival::Unwanted));
        };
        let mut notices = Notices::on(sheet);
        notices.push(Notice::DataLost { object });
        Outcome { result: Ok(Arrival::Lost), records: notices.count() }
    }

    /// 5, 4, 35, 37, or the controller as a place number: STARTED and not marked.
    fn check_on_bus(&self, controller: u32) -> Result<usize, Reason> {
        self.check_initialised()?;
        let controller = self.check_controller(controller)?;
        let place = &self.controllers[controller];
        if place.mode != Mode::Started {
            return Err(Reason::NotStarted);
        }
        if place.off_bus {
            return Err(Reason::OffBus);
        }
        Ok(controller)
    }
}

/// A receiving object fits a frame if the controllers agree and its filter does.
fn fits(config: &ObjectConfig, controller: usize, identifier: Identifier) -> bool {
    config.kind == Kind::Receiving
        && usize::from(config.controller) == controller
        && filter::fits(identifier, config.code, config.mask, config.payload.into())
}
