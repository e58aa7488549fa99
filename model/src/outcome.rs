//! Answers of calls: return codes, reasons and services ("Reasons for a no").

/// The reason for a no; the numbers are the paper's.
#[derive(Clone, Copy, Debug, PartialEq, Eq)]
pub enum Reason {
    /// CAN_E_PARAM_HANDLE: not a configured sending object, or one that does not name its pool.
    Handle = 2,
    /// CAN_E_PARAM_DATA_LENGTH: the data do not fit.
    DataLength = 3,
    /// CAN_E_PARAM_CONTROLLER: controller not below the configured count.
    Controller = 4,
    /// CAN_E_UNINIT: not initialised.
    Uninit = 5,
    /// CAN_E_TRANSITION: the move is forbidden.
    Transition = 6,
    /// CAN_E_INIT_FAILED: bad configuration.
    InitFailed = 9,
    /// Sheet shorter than 144 words, or the writer's buffer too short.
    ShortSheet = 32,
    /// Memory not 2,304 bytes.
    MemoryLength = 33,
    /// Identifier not good.
    Identifier = 34,
    /// Controller not STARTED.
    NotStarted = 35,
    /// No member of the pool is free (CAN_BUSY).
    Occupied = 36,
    /// Controller marked off-bus.
    OffBus = 37,
    /// No unsent frame in the object.
    NothingUnsent = 38,
    /// Arriving length not a wire length of its format.
    WireLength = 40,
    /// State not sound.
    NotSound = 41,
    /// Error count above 65,535.
    ErrorCount = 43,
}

impl Reason {
    /// The paper's number of this reason.
    pub fn number(self) -> u32 {
        self as u32
    }

    /// All reasons return 1 (E_NOT_OK) except 36, which returns 2 (CAN_BUSY).
    pub fn code(self) -> u32 {
        match self {
            Reason::Occupied => 2,
            _ => 1,
        }
    }

    /// The reasons of the standard, for which a service writes a record of
    /// kind 5. Reasons from 32 up write nothing.
    pub fn is_development_error(self) -> bool {
        self.number() < 32
    }
}

/// The services, with the numbers that stand in records of kind 5.
#[derive(Clone, Copy, Debug, PartialEq, Eq)]
pub enum Service {
    Init = 0x00,
    SetControllerMode = 0x03,
    Write = 0x06,
    DeInit = 0x10,
    GetControllerErrorState = 0x11,
    GetControllerMode = 0x12,
    GetControllerRxErrorCounter = 0x30,
    GetControllerTxErrorCounter = 0x31,
}

impl Service {
    /// The service number.
    pub fn number(self) -> u32 {
        self as u32
    }
}

/// What a call answers, and how many records it wrote.
#[derive(Clone, Copy, Debug, PartialEq, Eq)]
pub struct Outcome<T> {
    pub result: Result<T, Reason>,
    pub records: usize,
}

impl<T> Outcome<T> {
    /// An answer without records.
    pub fn silent(result: Result<T, Reason>) -> Outcome<T> {
        Outcome { result, records: 0 }
    }

    /// The return code: 0 E_OK, 1 E_NOT_OK, 2 CAN_BUSY.
    pub fn code(&self) -> u32 {
        self.result.as_ref().err().map_or(0, |reason| reason.code())
    }

    /// The reason, 0 with E_OK.
    pub fn reason(&self) -> u32 {
        self.result.as_ref().err().map_or(0, |reason| reason.number())
    }
}

#[cfg(test)]
mod tests {
    use super::*;

    #[test]
    fn codes_and_reasons() {
        let yes = Outcome::silent(Ok(()));
        assert_eq!((yes.code(), yes.reason()), (0, 0));
        let busy = Outcome::<()>::silent(Err(Reason::Occupied));
        assert_eq!((busy.code(), busy.reason()), (2, 36));
        let no = Outcome::<()>::silent(Err(Reason::InitFailed));
        assert_eq!((no.code(), no.reason()), (1, 9));
        assert!(Reason::InitFailed.is_development_error());
        assert!(!Reason::ShortSheet.is_development_error());
    }
}
