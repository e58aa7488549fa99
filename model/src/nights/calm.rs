//! Calm commands: mostly what the bench would accept next.

use super::frames::{
    arriving_length, bytes_words, fitting_identifier, good_identifier, handle, identifier_word,
    number_word, random_bytes_words, written_length,
};
use super::{configs, pools, said, Maker, Style};
use crate::config::{Config, Kind, ObjectConfig};
use crate::identifier::FD;
use crate::limits::OBJECTS;
use crate::mode::Mode;
use crate::state::{ControllerPlace, ObjectPlace, State};

/// What a calm night does.
#[derive(Clone, Copy)]
enum Action {
    Write,
    Sent,
    Arrived,
    PollWrite,
    PollRead,
    PollMode,
    PollBusOff,
    Set,
    Get,
    Next,
    BusOff,
    CutShort,
    Errors,
    AskErrors,
    Trouble,
    Look,
    BadMoment,
}

const ACTIONS: [(usize, Action); 17] = [
    (240, Action::Write),
    (170, Action::Sent),
    (190, Action::Arrived),
    (70, Action::PollWrite),
    (70, Action::PollRead),
    (60, Action::PollMode),
    (20, Action::PollBusOff),
    (70, Action::Set),
    (30, Action::Get),
    (60, Action::Next),
    (6, Action::BusOff),
    (12, Action::CutShort),
    (25, Action::Errors),
    (45, Action::AskErrors),
    (10, Action::Trouble),
    (40, Action::Look),
    (30, Action::BadMoment),
];

impl Maker {
    /// The next calm command.
    pub(super) fn calm_command(&mut self) -> String {
        if let Some(line) = self.coming.pop_front() {
            return line;
        }
        if !self.state().initialised {
            self.winding_down = false;
            return self.command_before_init();
        }
        let stay = match self.style {
            Style::Calm => 400,
            Style::Wild => 100,
        };
        if self.rng.one_in(stay) {
            self.winding_down = true;
        }
        if self.winding_down && self.rng.percent(40) {
            return self.wind_down();
        }
        loop {
            let action = self.rng.weighted(&ACTIONS);
            if let Some(command) = self.act(action) {
                return command;
            }
        }
    }

    fn state(&self) -> &State {
        self.bench().state()
    }

    /// Mostly Init, in a wild night often a broken one; now and then a call
    /// that comes too early.
    fn command_before_init(&mut self) -> String {
        if self.style == Style::Wild && self.rng.percent(70) {
            let bytes = configs::broken(&mut self.rng);
            return self.init_with(&bytes);
        }
        if self.rng.percent(70) {
            return self.init();
        }
        match self.rng.below(9) {
            0 => "deinit".to_string(),
            1 => format!("get {}", self.rng.below(4)),
            2 => format!("set {} STARTED", self.rng.below(4)),
            3 => format!("poll {}", self.rng.pick(["write", "read", "mode", "busoff"])),
            4 => format!("sent {}", self.rng.below(32)),
            5 => format!("next {}", self.rng.below(4)),
            6 => self.errors_anywhere(),
            7 => self.question_anywhere(),
            _ => self.look(),
        }
    }

    /// A good configuration, at times the one said in words before.
    fn init(&mut self) -> String {
        if self.rng.percent(25) {
            if let Some(line) = self.init_again() {
                return line;
            }
        }
        let bytes = configs::good(&mut self.rng);
        self.init_with(&bytes)
    }

    /// Init with these bytes, at times in words; then this is the first line, and
    /// the others come one by one.
    pub(super) fn init_with(&mut self, bytes: &[u8]) -> String {
        let in_words = match self.style {
            Style::Calm => self.rng.percent(30),
            // The more lines it takes the rarer it is.
            Style::Wild => self.rng.one_in(2 + bytes.len() / 20),
        };
        if in_words && self.coming.is_empty() {
            if let Some(lines) = said::lines(&mut self.rng, bytes) {
                return self.first_of(lines);
            }
        }
        format!("init {}", bytes_words(&mut self.rng, bytes))
    }

    /// The configuration said in words before, if it is a good one, at times with
    /// another object.
    fn init_again(&mut self) -> Option<String> {
        let config = Config::read(&self.bench().draft().bytes())?;
        if config.objects().len() == OBJECTS || self.rng.percent(60) {
            return Some("init".to_string());
        }
        let object = pools::one_more(&mut self.rng, &config);
        let line = said::object(&mut self.rng, &object)?;
        Some(self.first_of(vec![line, "init".to_string()]))
    }

    /// The first of some lines; the others come one by one, before any others that wait.
    pub(super) fn first_of(&mut self, lines: Vec<String>) -> String {
        for line in lines.into_iter().rev() {
            self.coming.push_front(line);
        }
        self.coming.pop_front().unwrap_or_default()
    }

    /// The next step towards a DeInit: handle bus-offs, stop every controller.
    fn wind_down(&mut self) -> String {
        let state = self.state();
        let places = &state.controllers[..state.config.controllers()];
        if places.iter().any(|place| place.off_bus) {
            return "poll busoff".to_string();
        }
        let waits = |place: &ControllerPlace| place.request != Some(Mode::Stopped);
        let to_stop = places.iter().position(|place| place.mode == Mode::Started && waits(place));
        if let Some(controller) = to_stop {
            return format!("set {controller} STOPPED");
        }
        let started = places.iter().any(|place| place.mode == Mode::Started);
        let waiting = places.iter().any(|place| place.request.is_some());
        if started || (waiting && self.rng.percent(50)) {
            return "poll mode".to_string();
        }
        "deinit".to_string()
    }

    /// A command for this action, if one makes sense now.
    fn act(&mut self, action: Action) -> Option<String> {
        match action {
            Action::Write => self.write_free(),
            Action::Sent => self.sent_waiting(),
            Action::Arrived => self.arrive(),
            Action::PollWrite => Some("poll write".to_string()),
            Action::PollRead => Some("poll read".to_string()),
            Action::PollMode => self.poll_mode(),
            Action::PollBusOff => self.poll_bus_off(),
            Action::Set => self.set_permitted(),
            Action::Get => self.get(),
            Action::Next => self.next_to_send(),
            Action::BusOff => self.bus_off(),
            Action::CutShort => self.cut_short(),
            Action::Errors => self.errors_on_bus(),
            Action::AskErrors => self.ask_errors(),
            Action::Trouble => self.trouble(),
            Action::Look => Some(self.look()),
            Action::BadMoment => Some(self.bad_moment()),
        }
    }

    /// The configured objects for which `test` holds, with their controllers.
    fn objects_where(
        &self,
        test: impl Fn(&ObjectConfig, &ObjectPlace, &ControllerPlace) -> bool,
    ) -> Vec<u32> {
        let state = self.state();
        let objects = state.config.objects().iter().zip(&state.objects).enumerate();
        objects
            .filter(|(_, (config, place))| {
                test(config, place, &state.controllers[usize::from(config.controller)])
            })
            .map(|(object, _)| object as u32)
            .collect()
    }

    /// The configured controllers for which `test` holds.
    pub(super) fn controllers_where(&self, test: impl Fn(&ControllerPlace) -> bool) -> Vec<u32> {
        let state = self.state();
        let places = state.controllers[..state.config.controllers()].iter().enumerate();
        places.filter(|(_, place)| test(place)).map(|(number, _)| number as u32).collect()
    }

    fn object_config(&self, object: u32) -> Option<ObjectConfig> {
        self.state().config.object(object).copied()
    }

    /// A frame that fits a pool with a free member, on a STARTED controller.
    fn write_free(&mut self) -> Option<String> {
        let free = self.objects_where(|config, place, controller| {
            config.kind == Kind::Sending && !place.occupied && controller.mode == Mode::Started
        });
        let object = *self.rng.choose(&free)?;
        self.write_to(self.lowest(object))
    }

    /// The members of the pool of an object, rising; none if it is not configured
    /// or receives.
    fn members(&self, object: u32) -> Vec<u32> {
        let config = &self.state().config;
        let sending = config.object(object).filter(|config| config.kind == Kind::Sending);
        let pool = sending.map(|sending| config.members(sending.pool));
        pool.into_iter().flatten().map(|member| member as u32).collect()
    }

    /// The object that names the pool of this one; itself if it is in none.
    pub(super) fn lowest(&self, object: u32) -> u32 {
        self.members(object).first().copied().unwrap_or(object)
    }

    /// As many frames as a pool takes, and one more; the first of them.
    fn fill_pool(&mut self) -> Option<String> {
        let started = self.objects_where(|config, _, controller| {
            config.kind == Kind::Sending && controller.mode == Mode::Started
        });
        let object = *self.rng.choose(&started)?;
        let members = self.members(object);
        let lowest = *members.first()?;
        let places = &self.state().objects;
        let free = members.iter().filter(|&&member| !places[member as usize].occupied).count();
        let lines: Option<Vec<String>> = (0..=free).map(|_| self.write_to(lowest)).collect();
        Some(self.first_of(lines?))
    }

    /// A fitting frame for a configured object, free or not.
    fn write_to(&mut self, object: u32) -> Option<String> {
        let config = self.object_config(object)?;
        let fd = config.payload == 64 && self.rng.percent(60);
        let identifier = good_identifier(&mut self.rng, fd);
        let length = written_length(&mut self.rng, identifier);
        Some(format!(
            "write {} {} {} {}",
            number_word(&mut self.rng, object),
            handle(&mut self.rng),
            identifier_word(&mut self.rng, identifier),
            random_bytes_words(&mut self.rng, length)
        ))
    }

    /// The objects with a frame that can be sent.
    fn waiting(&self) -> Vec<u32> {
        self.objects_where(|_, place, controller| {
            place.occupied && !place.gone && !controller.off_bus
        })
    }

    fn sent_waiting(&mut self) -> Option<String> {
        let waiting = self.waiting();
        let object = *self.rng.choose(&waiting)?;
        Some(self.sent(object))
    }

    fn sent(&mut self, object: u32) -> String {
        format!("sent {}", number_word(&mut self.rng, object))
    }

    /// Mostly a frame that some object wants; now and then any good frame.
    fn arrive(&mut self) -> Option<String> {
        let listening = |place: &ControllerPlace| place.mode == Mode::Started && !place.off_bus;
        let receiving = self.objects_where(|config, _, controller| {
            config.kind == Kind::Receiving && listening(controller)
        });
        let (controller, identifier) = match self.rng.choose(&receiving) {
            Some(&object) if self.rng.percent(90) => {
                let config = self.object_config(object)?;
                (config.controller.into(), fitting_identifier(&mut self.rng, &config))
            }
            _ => {
                let controllers = self.controllers_where(listening);
                let fd = self.rng.percent(50);
                (*self.rng.choose(&controllers)?, good_identifier(&mut self.rng, fd))
            }
        };
        let identifier = if self.rng.one_in(20) { identifier ^ FD } else { identifier };
        let length = arriving_length(&mut self.rng, identifier);
        Some(format!(
            "arrived {} {} {}",
            controller,
            identifier_word(&mut self.rng, identifier),
            random_bytes_words(&mut self.rng, length)
        ))
    }

    /// Rarer while no request waits.
    fn poll_mode(&mut self) -> Option<String> {
        let waiting = self.controllers_where(|place| place.request.is_some());
        (!waiting.is_empty() || self.rng.one_in(8)).then(|| "poll mode".to_string())
    }

    /// Rarer while no controller is marked.
    fn poll_bus_off(&mut self) -> Option<String> {
        let marked = self.controllers_where(|place| place.off_bus);
        (!marked.is_empty() || self.rng.one_in(8)).then(|| "poll busoff".to_string())
    }

    /// A permitted request; controllers are kept STARTED most of the time.
    fn set_permitted(&mut self) -> Option<String> {
        let all = self.controllers_where(|_| true);
        let controller = *self.rng.choose(&all)?;
        let mode = self.state().controllers[controller as usize].mode;
        let wish = match mode {
            Mode::Started if self.rng.one_in(12) => Mode::Stopped,
            Mode::Stopped => {
                self.rng.weighted(&[(86, Mode::Started), (7, Mode::Stopped), (7, Mode::Sleep)])
            }
            Mode::Sleep => self.rng.weighted(&[(80, Mode::Stopped), (20, Mode::Sleep)]),
            _ => return None,
        };
        let name = match wish {
            _ if self.rng.one_in(10) => wish.number().to_string(),
            Mode::Started => "STARTED".to_string(),
            Mode::Stopped => "STOPPED".to_string(),
            _ => "SLEEP".to_string(),
        };
        Some(format!("set {controller} {name}"))
    }

    fn get(&mut self) -> Option<String> {
        let all = self.controllers_where(|_| true);
        let controller = *self.rng.choose(&all)?;
        Some(format!("get {}", number_word(&mut self.rng, controller)))
    }

    /// Who sends next, on a controller for which a frame waits; rarer on others.
    pub(super) fn next_to_send(&mut self) -> Option<String> {
        let waiting = self.objects_where(|_, place, _| place.occupied && !place.gone);
        let waiting = self.rng.choose(&waiting).and_then(|&object| self.object_config(object));
        let all = self.controllers_where(|_| true);
        let controller = match waiting {
            Some(config) => config.controller.into(),
            None if self.rng.one_in(8) => *self.rng.choose(&all)?,
            None => return None,
        };
        Some(format!("next {}", number_word(&mut self.rng, controller)))
    }

    /// Frames leave, and before any write poll their controller is stopped or goes
    /// off the bus. At times a frame is written in between; mostly the controller is
    /// started again. The first of the lines.
    fn cut_short(&mut self) -> Option<String> {
        let waiting = self.waiting();
        let object = *self.rng.choose(&waiting)?;
        let controller = self.object_config(object)?.controller;
        let (cut, poll) = if self.rng.percent(40) {
            (format!("set {controller} STOPPED"), "poll mode")
        } else {
            (self.off_the_bus(controller.into()), "poll busoff")
        };
        let mut lines = self.leave(controller);
        lines.push(cut);
        if self.rng.percent(25) {
            lines.extend(self.write_free());
        }
        lines.push(poll.to_string());
        if self.rng.percent(75) {
            lines.extend([format!("set {controller} STARTED"), "poll mode".to_string()]);
        }
        Some(self.first_of(lines))
    }

    /// All frames that wait on a controller are sent, or some of them, in any order.
    fn leave(&mut self, controller: u8) -> Vec<String> {
        let mut waiting = self.objects_where(|config, place, _| {
            config.controller == controller && place.occupied && !place.gone
        });
        let count = waiting.len();
        let leaving = if self.rng.percent(40) { count } else { self.rng.below(count + 1) };
        let mut lines = Vec::new();
        for _ in 0..leaving {
            let object = waiting.swap_remove(self.rng.below(waiting.len()));
            lines.push(self.sent(object));
        }
        lines
    }

    /// Data, show, state and the writer, which change nothing.
    fn look(&mut self) -> String {
        match self.rng.below(10) {
            0 => "state".to_string(),
            1 | 2 => format!("show {}", self.rng.below(33)),
            3 => self.config_with_room(),
            _ => format!("data {}", self.rng.below(32)),
        }
    }

    /// The bytes that the state's configuration takes.
    pub(super) fn config_bytes(&self) -> usize {
        8 + 12 * self.state().config.objects().len()
    }

    /// The writer with a known version, mostly the second, and room enough.
    fn config_with_room(&mut self) -> String {
        let version = if self.rng.percent(80) { 2 } else { 1 };
        let bytes = self.config_bytes();
        let room = self.rng.pick([bytes, bytes, bytes + 1, bytes + 12, 392, 4096]);
        format!("config {version} {}", number_word(&mut self.rng, room as u32))
    }

    /// A sensible call at a moment when it may well be refused: a restart in
    /// mid-flight, a write to a full pool or to a member that does not name it, a
    /// sent, a bus-off or error counts out of turn.
    fn bad_moment(&mut self) -> String {
        let object = self.rng.below(32) as u32;
        let controller = self.rng.below(4);
        match self.rng.below(9) {
            0 => self.init(),
            1 => "deinit".to_string(),
            2 => format!("set {controller} {}", self.rng.pick(["STARTED", "SLEEP", "STOPPED"])),
            3 => format!("busoff {controller}"),
            4 => format!("sent {object}"),
            5 => format!("arrived {controller} 120 {}", random_bytes_words(&mut self.rng, 8)),
            6 => self.fill_pool().unwrap_or_else(|| "poll write".to_string()),
            7 => self.errors_anywhere(),
            _ => {
                let named = if self.rng.percent(50) { object } else { self.lowest(object) };
                self.write_to(named).unwrap_or_else(|| format!("sent {object}"))
            }
        }
    }
}
