//! Rules that a script cannot show, or not in so few lines: any first memory, any
//! sheet content, states that are not sound, every mixture of objects to close, and
//! every step from one pair of error counts to another.

use pump_model::error_state::ErrorCounts;
use pump_model::identifier::Identifier;
use pump_model::mode::Mode;
use pump_model::outcome::{Outcome, Reason};
use pump_model::state::{ObjectPlace, State};

/// The paper's configuration K.
const K: [u8; 32] = [
    0x43, 0x48, 0x42, 0x00, 0x01, 0x01, 0x02, 0x00, //
    0x00, 0x00, 0x40, 0xCC, 0, 0, 0, 0, 0, 0, 0, 0, //
    0x00, 0x01, 0x08, 0x00, 0x00, 0x00, 0x01, 0x20, 0x00, 0x00, 0x07, 0xFF,
];

/// K accepted and controller 0 STARTED, with a memory and a sheet full of marks.
fn started() -> (State, Vec<u32>, Vec<u8>) {
    let (mut state, mut sheet, mut memory) = (State::default(), vec![0; 144], vec![0; 2304]);
    assert_eq!(state.init(&K, &mut sheet, &mut memory), Outcome::silent(Ok(())));
    assert_eq!(state.set_mode(0, 1, &mut sheet), Outcome::silent(Ok(())));
    assert_eq!(state.poll_mode(&mut sheet, &memory).code(), 0);
    (state, vec![0xABCD_EF01; 150], vec![0xEE; 2304])
}

#[test]
fn init_zeroes_any_memory_and_a_refused_one_leaves_it() {
    let (mut state, mut sheet, mut memory) = (State::default(), vec![7; 144], vec![0xEE; 2304]);
    let refused = state.init(&K[..31], &mut sheet, &mut memory);
    assert_eq!(refused, Outcome { result: Err(Reason::InitFailed), records: 1 });
    assert_eq!(state, State::default());
    assert!(memory.iter().all(|&byte| byte == 0xEE));
    assert_eq!(sheet[..4], [5, 0, 9, 0]);
    assert!(sheet[4..].iter().all(|&word| word == 7));

    let mut sheet = vec![7; 144];
    assert_eq!(state.init(&K, &mut sheet, &mut memory), Outcome::silent(Ok(())));
    assert!(memory.iter().all(|&byte| byte == 0));
    assert!(sheet.iter().all(|&word| word == 7));
}

#[test]
fn deinit_zeroes_any_memory() {
    let (mut state, mut sheet, mut memory) = started();
    assert_eq!(state.set_mode(0, 2, &mut sheet).code(), 0);
    assert_eq!(state.poll_mode(&mut sheet, &memory).code(), 0);
    assert_eq!(state.deinit(&mut sheet, &mut memory), Outcome::silent(Ok(())));
    assert!(memory.iter().all(|&byte| byte == 0));
    assert_eq!(state, State::default());
}

#[test]
fn a_write_touches_its_72_bytes_only() {
    let (mut state, mut sheet, mut memory) = started();
    let written = state.write(0, 7, Identifier(0x123), &[1, 2], &mut sheet, &mut memory);
    assert_eq!(written, Outcome::silent(Ok(0)));
    assert_eq!(memory[..10], [0, 0, 1, 0x23, 2, 2, 0, 7, 1, 2]);
    assert!(memory[10..72].iter().all(|&byte| byte == 0));
    assert!(memory[72..].iter().all(|&byte| byte == 0xEE));
    assert!(sheet.iter().all(|&word| word == 0xABCD_EF01));
}

#[test]
fn a_write_touches_the_bytes_of_its_member_only() {
    let (mut state, mut sheet, mut memory) = (State::default(), vec![0; 144], vec![0; 2304]);
    let mut bytes = b"CHB\x00\x02\x01\x03\x00".to_vec();
    for _ in 0..3 {
        bytes.extend([0, 0, 64, 0xCC, 0, 0, 0, 31, 0, 0, 0, 0]);
    }
    assert_eq!(state.init(&bytes, &mut sheet, &mut memory).code(), 0);
    assert_eq!(state.set_mode(0, 1, &mut sheet).code(), 0);
    assert_eq!(state.poll_mode(&mut sheet, &memory).code(), 0);
    let mut write = |state: &mut State, memory: &mut [u8], handle| {
        state.write(0, handle, Identifier(0x123), &[1, 2], &mut sheet, memory)
    };
    assert_eq!(write(&mut state, &mut memory, 1), Outcome::silent(Ok(0)));
    memory.fill(0xEE);
    assert_eq!(write(&mut state, &mut memory, 2), Outcome::silent(Ok(1)));
    assert!(memory[..72].iter().all(|&byte| byte == 0xEE));
    assert_eq!(memory[72..82], [0, 0, 1, 0x23, 2, 2, 0, 2, 1, 2]);
    assert!(memory[82..144].iter().all(|&byte| byte == 0));
    assert!(memory[144..].iter().all(|&byte| byte == 0xEE));
    assert_eq!(write(&mut state, &mut memory, 3), Outcome::silent(Ok(2)));
    let (before, bytes) = (state.clone(), memory.clone());
    let busy = write(&mut state, &mut memory, 4);
    assert_eq!((busy.code(), busy.reason(), busy.records), (2, 36, 0));
    assert!(state == before && memory == bytes);
}

#[test]
fn records_are_read_from_the_memory_lent_to_that_call() {
    let (mut state, mut sheet, mut memory) = started();
    assert_eq!(state.write(0, 7, Identifier(0), &[], &mut sheet, &mut memory).code(), 0);
    assert_eq!(state.sent(0).code(), 0);
    let arrived = state.arrived(0, Identifier(0x120), &[], &mut sheet, &mut memory);
    assert_eq!(arrived.code(), 0);

    let other = vec![0xEE; 2304];
    assert_eq!(state.poll_write(&mut sheet, &other).records, 1);
    assert_eq!(sheet[..4], [1, 0, 0xEEEE, 0]);
    assert_eq!(state.poll_read(&mut sheet, &other).records, 1);
    assert_eq!(sheet[..4], [2, 1, 0xEEEE_EEEE, 0xEE]);
    assert!(sheet[4..].iter().all(|&word| word == 0xABCD_EF01));
}

/// Objects 0 to 2 send on controller 0, object 3 on controller 1; both are STARTED.
/// Handle 10 + h lies in object h.
fn four_sending() -> (State, Vec<u8>) {
    let (mut state, mut sheet, mut memory) = (State::default(), vec![0; 144], vec![0; 2304]);
    let mut bytes = b"CHB\x00\x01\x02\x04\x00".to_vec();
    for controller in [0, 0, 0, 1] {
        bytes.extend([controller, 0, 8, 0, 0, 0, 0, 0, 0, 0, 0, 0]);
    }
    assert_eq!(state.init(&bytes, &mut sheet, &mut memory).code(), 0);
    for controller in [0, 1] {
        assert_eq!(state.set_mode(controller, 1, &mut sheet).code(), 0);
    }
    assert_eq!(state.poll_mode(&mut sheet, &memory).code(), 0);
    for object in 0..4 {
        memory[72 * object + 7] = 10 + object as u8;
    }
    (state, memory)
}

type Poll = fn(&mut State, &mut [u32], &[u8]) -> Outcome<()>;

/// The records that a poll writes on this state, and the objects it leaves.
fn polled(poll: Poll, mut state: State, memory: &[u8]) -> (Vec<[u32; 4]>, [ObjectPlace; 4]) {
    let mut sheet = vec![0xABCD_EF01; 144];
    let outcome = poll(&mut state, &mut sheet, memory);
    assert!(outcome.code() == 0 && state.is_sound());
    let (written, rest) = sheet.split_at(4 * outcome.records);
    assert!(rest.iter().all(|&word| word == 0xABCD_EF01));
    let records = written.chunks_exact(4).map(|words| [words[0], words[1], words[2], words[3]]);
    let [a, b, c, d, ..] = state.objects;
    (records.collect(), [a, b, c, d])
}

#[test]
fn an_object_is_closed_by_its_own_gone_mark_alone() {
    let free = ObjectPlace::default();
    let waiting = ObjectPlace { occupied: true, ..free };
    let gone = ObjectPlace { gone: true, ..waiting };
    let (started, memory) = four_sending();
    for number in 0..81 {
        let places = [1, 3, 9, 27].map(|power| [free, waiting, gone][number / power % 3]);
        let mut state = started.clone();
        state.objects[..4].copy_from_slice(&places);

        let left = (0..4).filter(|&object| places[object].gone);
        let confirmed = left.map(|object| [1, object as u32, 10 + object as u32, 0]).collect();
        let others = places.map(|place| if place.gone { free } else { place });
        assert_eq!(polled(State::poll_write, state.clone(), &memory), (confirmed, others));

        let mut closed = Vec::new();
        for object in (0..3).filter(|&object| places[object].occupied) {
            let kind = if places[object].gone { 1 } else { 7 };
            closed.push([kind, object as u32, 10 + object as u32, 0]);
        }
        let after = |last| ([&closed[..], &[last]].concat(), [free, free, free, places[3]]);
        let mut stopped = state.clone();
        stopped.controllers[0].request = Some(Mode::Stopped);
        assert_eq!(polled(State::poll_mode, stopped, &memory), after([3, 0, 2, 0]));
        let mut marked = state;
        marked.controllers[0].off_bus = true;
        assert_eq!(polled(State::poll_bus_off, marked, &memory), after([4, 0, 0, 0]));
    }
}

/// Counts on both sides of each limit.
const COUNTS: [u32; 10] = [0, 1, 127, 128, 129, 254, 255, 256, 65_534, 65_535];

/// The error state by the counts alone, as 02 says it.
fn state_of(transmit: u32, receive: u32) -> u32 {
    match (transmit, receive) {
        (256.., _) => 2,
        (128.., _) | (_, 128..) => 1,
        _ => 0,
    }
}

/// Every pair of counts.
fn pairs() -> impl Iterator<Item = (u32, u32)> {
    COUNTS.into_iter().flat_map(|transmit| COUNTS.map(|receive| (transmit, receive)))
}

#[test]
fn every_step_from_counts_to_counts() {
    let (started, _, memory) = started();
    for (transmit, receive) in pairs().filter(|&(transmit, _)| transmit < 256) {
        let mut before = started.clone();
        before.controllers[0].errors = ErrorCounts { transmit, receive };
        let old = state_of(transmit, receive);
        for (transmit, receive) in pairs() {
            let new = state_of(transmit, receive);
            let (mut state, mut sheet) = (before.clone(), vec![0xABCD_EF01; 150]);
            let counts = ErrorCounts { transmit, receive };
            let outcome = state.error_counts(0, counts, &mut sheet);
            let told = usize::from((old, new) == (0, 1));
            assert_eq!(outcome, Outcome { result: Ok(()), records: told });
            let (record, rest) = sheet.split_at(4 * told);
            assert!(rest.iter().all(|&word| word == 0xABCD_EF01));
            assert!(told == 0 || record == [8, 0, transmit.min(255), receive.min(255)]);
            let mut expected = before.clone();
            expected.controllers[0].errors = counts;
            expected.controllers[0].off_bus = new == 2;
            assert_eq!(state, expected);
            asked_until_started(state, new, counts, &memory);
        }
    }
}

/// What the three services answer now, and after a bus-off or a stop, and after the next start.
fn asked_until_started(mut state: State, error_state: u32, counts: ErrorCounts, memory: &[u8]) {
    let mut sheet = vec![0; 144];
    let told = (counts.receive.min(255), counts.transmit.min(255));
    let mut ask = |state: &State| {
        let number = state.error_state(0, &mut sheet).result.expect("an answer").number();
        let receive = state.receive_errors(0, &mut sheet).result.expect("an answer");
        let transmit = state.transmit_errors(0, &mut sheet).result.expect("an answer");
        (number, (receive, transmit))
    };
    assert_eq!(ask(&state), (error_state, told));
    let mut sheet = vec![0; 144];
    if error_state == 2 {
        assert_eq!(state.poll_bus_off(&mut sheet, memory).records, 1);
    } else {
        assert_eq!(state.set_mode(0, 2, &mut sheet).code(), 0);
        assert_eq!(state.poll_mode(&mut sheet, memory).code(), 0);
    }
    for mode in [2, 3, 3, 2, 1] {
        assert!(state.is_sound());
        assert_eq!(state.controllers[0].recovering, error_state == 2);
        assert_eq!(state.controllers[0].errors, counts);
        assert_eq!(ask(&state), (error_state, told));
        assert_eq!(state.set_mode(0, mode, &mut sheet).code(), 0);
        assert_eq!(ask(&state), (error_state, told));
        assert_eq!(state.poll_mode(&mut sheet, memory).code(), 0);
    }
    assert_eq!(ask(&state), (0, (0, 0)));
    assert_eq!(state.controllers[0].mode, Mode::Started);
}

#[test]
fn who_sends_next_is_read_from_the_memory_lent_to_that_call() {
    let (mut state, mut sheet, mut memory) = (State::default(), vec![0; 144], vec![0; 2304]);
    let mut bytes = b"CHB\x00\x01\x01\x02\x00".to_vec();
    bytes.extend([0, 0, 8, 0, 0, 0, 0, 0, 0, 0, 0, 0].repeat(2));
    assert_eq!(state.init(&bytes, &mut sheet, &mut memory).code(), 0);
    assert_eq!(state.set_mode(0, 1, &mut sheet).code(), 0);
    assert_eq!(state.poll_mode(&mut sheet, &memory).code(), 0);
    for (object, identifier) in [(0, 2), (1, 1)] {
        let written = state.write(object, 0, Identifier(identifier), &[], &mut sheet, &mut memory);
        assert_eq!(written.code(), 0);
    }
    assert_eq!(state.next_to_send(0, &memory), Outcome::silent(Ok(Some(1))));
    assert_eq!(state.next_to_send(0, &[0xEE; 2304]), Outcome::silent(Ok(Some(0))));
    // Nothing of a word that is not good counts but what is compared: 2, then 1 with bit 11.
    memory[72 + 2] = 8;
    assert_eq!(state.next_to_send(0, &memory), Outcome::silent(Ok(Some(1))));
    memory[72] = 0x80;
    assert_eq!(state.next_to_send(0, &memory), Outcome::silent(Ok(Some(1))), "base 0");
    memory[72 + 1] = 0x08;
    assert_eq!(state.next_to_send(0, &memory), Outcome::silent(Ok(Some(0))), "base 2");
}

#[test]
fn a_state_that_is_not_sound_is_41_everywhere() {
    let (mut state, _, mut memory) = started();
    state.objects[0].full = true;
    let mut short_sheet = vec![9; 3];
    let before = state.clone();
    let sheet = &mut short_sheet[..];
    let identifier = Identifier(0x2000_0000);
    let not_sound = |code: u32, reason: u32, records: usize| {
        assert_eq!((code, reason, records), (1, 41, 0));
    };
    let judge = |outcome: Outcome<()>| {
        not_sound(outcome.code(), outcome.reason(), outcome.records);
    };
    judge(state.init(&K, sheet, &mut memory));
    judge(state.deinit(sheet, &mut memory));
    judge(state.set_mode(9, 9, sheet));
    judge(state.poll_write(sheet, &memory));
    judge(state.poll_read(sheet, &memory));
    judge(state.poll_mode(sheet, &memory));
    judge(state.poll_bus_off(sheet, &memory));
    judge(state.sent(9));
    judge(state.bus_off(9));
    judge(state.error_counts(9, ErrorCounts { transmit: 65_536, receive: 0 }, sheet));
    let got = state.get_mode(9, sheet);
    not_sound(got.code(), got.reason(), got.records);
    let asked = state.error_state(9, sheet);
    not_sound(asked.code(), asked.reason(), asked.records);
    for asked in [state.receive_errors(9, sheet), state.transmit_errors(9, sheet)] {
        not_sound(asked.code(), asked.reason(), asked.records);
    }
    let next = state.next_to_send(9, &[]);
    not_sound(next.code(), next.reason(), next.records);
    let written = state.write(9, 9, identifier, &[], sheet, &mut memory);
    not_sound(written.code(), written.reason(), written.records);
    let arrived = state.arrived(9, identifier, &[], sheet, &mut memory);
    not_sound(arrived.code(), arrived.reason(), arrived.records);

    assert_eq!(state, before);
    assert!(memory.iter().all(|&byte| byte == 0xEE));
    assert_eq!(short_sheet, [9; 3]);
    assert_eq!(state.controllers[0].mode, Mode::Started);
}
