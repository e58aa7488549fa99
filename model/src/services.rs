//! The services ("Services and polls", "Reasons for a no"; 02, Q-5).
//!
//! Each public service runs its checks in the paper's order inside a `try_`
//! function and then, with a no of the standard's, writes one record of kind 5.

use crate::config::Config;
use crate::error_state::ErrorState;
use crate::identifier::Identifier;
use crate::length;
use crate::mailbox::Frame;
use crate::mode::Mode;
use crate::notice::{Notice, Notices};
use crate::outcome::{Outcome, Reason, Service};
use crate::state::{check_memory, check_sheet, ControllerPlace, State};

impl State {
    /// Init (0x00): the configuration is accepted, memory all zero, no record.
    pub fn init(&mut self, bytes: &[u8], sheet: &mut [u32], memory: &mut [u8]) -> Outcome<()> {
        let result = self.try_init(bytes, sheet, memory);
        reported(Service::Init, result, sheet)
    }

    /// 41, 32, 33, then 6 if initialised, 9 if the configuration is bad.
    fn try_init(&mut self, bytes: &[u8], sheet: &[u32], memory: &mut [u8]) -> Result<(), Reason> {
        self.check_sound()?;
        check_sheet(sheet)?;
        check_memory(memory)?;
        if self.initialised {
            return Err(Reason::Transition);
        }
        let config = Config::read(bytes).ok_or(Reason::InitFailed)?;
        *self = State::configured(config);
        memory.fill(0);
        Ok(())
    }

    /// DeInit (0x10): memory all zero, state at rest, no record.
    pub fn deinit(&mut self, sheet: &mut [u32], memory: &mut [u8]) -> Outcome<()> {
        let result = self.try_deinit(sheet, memory);
        reported(Service::DeInit, result, sheet)
    }

    /// 41, 32, 33, then 6 if not initialised or a controller is STARTED.
    fn try_deinit(&mut self, sheet: &[u32], memory: &mut [u8]) -> Result<(), Reason> {
        self.check_sound()?;
        check_sheet(sheet)?;
        check_memory(memory)?;
        let started = self.controllers.iter().any(|place| place.mode == Mode::Started);
        if !self.initialised || started {
            return Err(Reason::Transition);
        }
        *self = State::default();
        memory.fill(0);
        Ok(())
    }

    /// SetControllerMode (0x03): the request waits, replacing an earlier one.
    pub fn set_mode(&mut self, controller: u32, mode: u32, sheet: &mut [u32]) -> Outcome<()> {
        let result = self.try_set_mode(controller, mode, sheet);
        reported(Service::SetControllerMode, result, sheet)
    }

    /// 41, 32, then 5, 4, 6 (unknown mode, or forbidden from the present mode).
    fn try_set_mode(&mut self, controller: u32, mode: u32, sheet: &[u32]) -> Result<(), Reason> {
        self.check_sound()?;
        check_sheet(sheet)?;
        self.check_initialised()?;
        let controller = self.check_controller(controller)?;
        let place = &mut self.controllers[controller];
        let wish = Mode::requested(mode)
            .filter(|&wish| place.mode.permits(wish))
            .ok_or(Reason::Transition)?;
        place.request = Some(wish);
        Ok(())
    }

    /// GetControllerMode (0x12): the mode (whoever prints a no prints 0).
    pub fn get_mode(&self, controller: u32, sheet: &mut [u32]) -> Outcome<Mode> {
        self.ask(Service::GetControllerMode, controller, sheet, |place| place.mode)
    }

    /// Error state (0x11): active, passive or bus-off.
    pub fn error_state(&self, controller: u32, sheet: &mut [u32]) -> Outcome<ErrorState> {
        let service = Service::GetControllerErrorState;
        self.ask(service, controller, sheet, ControllerPlace::error_state)
    }

    /// Receive error count (0x30), told up to 255.
    pub fn receive_errors(&self, controller: u32, sheet: &mut [u32]) -> Outcome<u32> {
        let service = Service::GetControllerRxErrorCounter;
        self.ask(service, controller, sheet, |place| place.errors.told().receive)
    }

    /// Transmit error count (0x31), told up to 255.
    pub fn transmit_errors(&self, controller: u32, sheet: &mut [u32]) -> Outcome<u32> {
        let service = Service::GetControllerTxErrorCounter;
        self.ask(service, controller, sheet, |place| place.errors.told().transmit)
    }

    /// A question of a controller: all of them have the same checks.
    fn ask<T>(
        &self,
        service: Service,
        controller: u32,
        sheet: &mut [u32],
        question: impl FnOnce(&ControllerPlace) -> T,
    ) -> Outcome<T> {
        let result = self.try_ask(controller, sheet).map(question);
        reported(service, result, sheet)
    }

    /// 41, 32, then 5, 4.
    fn try_ask(&self, controller: u32, sheet: &[u32]) -> Result<&ControllerPlace, Reason> {
        self.check_sound()?;
        check_sheet(sheet)?;
        self.check_initialised()?;
        let controller = self.check_controller(controller)?;
        Ok(&self.controllers[controller])
    }

    /// Write (0x06): the pool's lowest free member is occupied, its 72 bytes are
    /// laid down whole; the answer names the member.
    pub fn write(
        &mut self,
        object: u32,
        handle: u16,
        identifier: Identifier,
        data: &[u8],
        sheet: &mut [u32],
        memory: &mut [u8],
    ) -> Outcome<u32> {
        let result = self.try_write(object, handle, identifier, data, sheet, memory);
        reported(Service::Write, result, sheet)
    }

    /// 41, 32, 33, then 5, 2, 3, 34, 35, 36. The busy test stands before any copy.
    /// `object` names the pool; members agree in all that is tested here.
    fn try_write(
        &mut self,
        object: u32,
        handle: u16,
        identifier: Identifier,
        data: &[u8],
        sheet: &[u32],
        memory: &mut [u8],
    ) -> Result<u32, Reason> {
        self.check_sound()?;
        check_sheet(sheet)?;
        check_memory(memory)?;
        self.check_initialised()?;
        let config = self.check_pool(object)?;
        let fd = identifier.is_fd();
        if fd && config.payload != 64 {
            return Err(Reason::DataLength);
        }
        let wire = length::outgoing(fd, data.len()).ok_or(Reason::DataLength)?;
        if !identifier.is_good() {
            return Err(Reason::Identifier);
        }
        if self.controllers[usize::from(config.controller)].mode != Mode::Started {
            return Err(Reason::NotStarted);
        }
        let member = self.check_free(config.pool)?;
        self.objects[member].occupied = true;
        let padding = config.padding;
        Frame { identifier, wire, handle, data, padding }.lay_down(memory, member);
        Ok(member as u32)
    }
}

/// A no of the standard's writes one record of kind 5; all else none.
fn reported<T>(service: Service, result: Result<T, Reason>, sheet: &mut [u32]) -> Outcome<T> {
    let mut notices = Notices::on(sheet);
    if let Err(error) = &result {
        if error.is_development_error() {
            notices.push(Notice::DevelopmentError { service, error: *error });
        }
    }
    let records = notices.count();
    Outcome { result, records }
}
