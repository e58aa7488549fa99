//! The four polls ("Services and polls"; 02, Q-4 and Q-5).
//!
//! A poll has no reason beyond 41, 32 and 33. Before Init it does nothing and
//! answers 0: nothing is configured, so there is nothing to go through.

use crate::config::ObjectConfig;
use crate::mailbox;
use crate::mode::Mode;
use crate::notice::{Notice, Notices};
use crate::outcome::{Outcome, Reason};
use crate::state::{check_memory, check_sheet, ObjectPlace, State};

impl State {
    /// Write poll: each gone object in rising order is confirmed and freed.
    pub fn poll_write(&mut self, sheet: &mut [u32], memory: &[u8]) -> Outcome<()> {
        self.poll(sheet, memory, |state, notices| {
            state.close_where(memory, notices, |place, _| place.gone);
        })
    }

    /// Read poll: each full object in rising order is indicated and emptied.
    pub fn poll_read(&mut self, sheet: &mut [u32], memory: &[u8]) -> Outcome<()> {
        self.poll(sheet, memory, |state, notices| {
            for (object, place) in state.objects.iter_mut().enumerate() {
                if place.full {
                    let identifier = mailbox::identifier(memory, object);
                    let length = mailbox::wire_length(memory, object);
                    notices.push(Notice::Received { object, identifier, length });
                    place.full = false;
                }
            }
        })
    }

    /// Mode poll: in rising order, skipping controllers marked off-bus, a
    /// waiting request is carried out and cleared. Leaving STARTED closes what
    /// is occupied first. A request for the present mode still gives the mode
    /// record.
    pub fn poll_mode(&mut self, sheet: &mut [u32], memory: &[u8]) -> Outcome<()> {
        self.poll(sheet, memory, |state, notices| {
            for controller in 0..state.config.controllers() {
                let place = state.controllers[controller];
                if place.off_bus {
                    continue;
                }
                let Some(mode) = place.request else {
                    continue;
                };
                if place.mode == Mode::Started && mode != Mode::Started {
                    state.close_all(controller, memory, notices);
                }
                state.controllers[controller].enter(mode);
                notices.push(Notice::Mode { controller, mode });
            }
        })
    }

    /// Bus-off poll: for each marked controller, rising: its occupied objects
    /// are closed and freed, the bus-off record follows, the mode becomes
    /// STOPPED, mark and waiting request are cleared, the second mark is set; no
    /// mode record.
    pub fn poll_bus_off(&mut self, sheet: &mut [u32], memory: &[u8]) -> Outcome<()> {
        self.poll(sheet, memory, |state, notices| {
            for controller in 0..state.config.controllers() {
                if !state.controllers[controller].off_bus {
                    continue;
                }
                state.close_all(controller, memory, notices);
                notices.push(Notice::BusOff { controller });
                state.controllers[controller].leave_bus();
            }
        })
    }

    /// The frame of every poll: 41, 32, 33, then the work.
    fn poll(
        &mut self,
        sheet: &mut [u32],
        memory: &[u8],
        work: impl FnOnce(&mut State, &mut Notices),
    ) -> Outcome<()> {
        if let Err(reason) = self.check_poll(sheet, memory) {
            return Outcome::silent(Err(reason));
        }
        let mut notices = Notices::on(sheet);
        work(self, &mut notices);
        Outcome { result: Ok(()), records: notices.count() }
    }

    fn check_poll(&self, sheet: &[u32], memory: &[u8]) -> Result<(), Reason> {
        self.check_sound()?;
        check_sheet(sheet)?;
        check_memory(memory)
    }

    /// Closes every occupied object of a controller.
    fn close_all(&mut self, controller: usize, memory: &[u8], notices: &mut Notices) {
        self.close_where(memory, notices, |_, config| usize::from(config.controller) == controller);
    }

    /// Closes the occupied objects that pass the test, in one rising order: each
    /// gets its notice and is freed. Freeing changes no byte of memory.
    fn close_where(
        &mut self,
        memory: &[u8],
        notices: &mut Notices,
        test: impl Fn(&ObjectPlace, &ObjectConfig) -> bool,
    ) {
        let configs = self.config.objects().iter();
        for (object, (place, config)) in self.objects.iter_mut().zip(configs).enumerate() {
            if place.occupied && test(place, config) {
                notices.push(closing_notice(object, place, memory));
                place.free();
            }
        }
    }
}

/// The closing notice of an occupied object, whichever poll closes it: one "that
/// is gone gets its confirmation (kind 1) at its place in the rising order, the
/// others a cancellation" (02, Q-4). Nothing but its own mark counts.
fn closing_notice(object: usize, place: &ObjectPlace, memory: &[u8]) -> Notice {
    let handle = mailbox::handle(memory, object);
    if place.gone {
        Notice::Confirmed { object, handle }
    } else {
        Notice::Cancelled { object, handle }
    }
}
