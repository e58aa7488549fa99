//! Random nights, judged by books that are kept apart from the model: every
//! state is sound, the mode book agrees, every accepted write takes the lowest free
//! member of the pool that it names, and is closed once, by a record with its own
//! handle, its 72 bytes untouched till then. It is confirmed exactly if it was sent
//! since, and else cancelled, whichever poll closes it.

mod common;

use std::collections::{BTreeMap, BTreeSet};

use common::printed::{plain_number, words, Printed};
use pump_model::config::{Config, Kind};
use pump_model::mailbox;
use pump_model::nights::{self, Maker, Style};

/// The paper's mode book, fed each call's arguments and return code.
#[derive(Default)]
struct ModeBook {
    modes: [u32; 4],
    wishes: [Option<u32>; 4],
    marks: [bool; 4],
    /// The controllers of the configuration in words.
    said: usize,
}

impl ModeBook {
    /// Notes a line that is understood and prints nothing.
    fn note_silent(&mut self, words: &[&str]) {
        if let ["controllers", count] = *words {
            self.said = plain_number(count) as usize;
        }
    }

    fn note(&mut self, name: &str, words: &[&str]) {
        match name {
            "init" => {
                let digits = words[1..].concat();
                let count = match digits.get(10..12) {
                    Some(count) => usize::from_str_radix(count, 16).expect("hex"),
                    None => self.said,
                };
                self.modes[..count].fill(2);
            }
            "deinit" => *self = ModeBook { said: self.said, ..ModeBook::default() },
            "set" => {
                let wish = match words[2] {
                    "STARTED" => 1,
                    "STOPPED" => 2,
                    "SLEEP" => 3,
                    number => plain_number(number),
                };
                self.wishes[plain_number(words[1]) as usize] = Some(wish);
            }
            "busoff" => self.marks[plain_number(words[1]) as usize] = true,
            "errors" if plain_number(words[2]) > 255 => {
                self.marks[plain_number(words[1]) as usize] = true;
            }
            "poll-mode" => {
                for controller in (0..4).filter(|&controller| !self.marks[controller]) {
                    if let Some(wish) = self.wishes[controller].take() {
                        let permitted = matches!(
                            (self.modes[controller], wish),
                            (1, 2) | (2, 1..=3) | (3, 2 | 3)
                        );
                        assert!(permitted, "{} to {wish}", self.modes[controller]);
                        self.modes[controller] = wish;
                    }
                }
            }
            "poll-busoff" => {
                for controller in 0..4 {
                    if std::mem::take(&mut self.marks[controller]) {
                        self.modes[controller] = 2;
                        self.wishes[controller] = None;
                    }
                }
            }
            _ => (),
        }
    }
}

/// What lies in the objects, by object number.
#[derive(Default)]
struct FrameBook {
    /// Writes that no record has closed yet: handle and 72 bytes.
    open: BTreeMap<u32, (u32, Vec<u8>)>,
    /// Objects sent since their write.
    sent: BTreeSet<u32>,
    /// Frames stored and not yet indicated: identifier and length.
    stored: BTreeMap<u32, (u32, u32)>,
    /// How often several frames competed for who sends next.
    contests: usize,
}

impl FrameBook {
    /// Judges the records of an accepted call, then notes what the call did.
    fn note(&mut self, printed: &Printed, words: &[&str], memory: &[u8]) {
        let mut indicated = Vec::new();
        for record in &printed.records {
            match record[0] {
                1 | 7 => self.close(&printed.name, record),
                2 => indicated.push((record[1], (record[2], record[3]))),
                _ => (),
            }
        }
        match printed.name.as_str() {
            "write" => self.open_write(plain_number(&printed.answer), words, memory),
            "sent" => self.leave(plain_number(words[1])),
            "poll-write" => assert!(self.sent.is_empty(), "sent but not confirmed"),
            "poll-read" => assert!(std::mem::take(&mut self.stored).into_iter().eq(indicated)),
            "arrived" => self.store(&printed.answer, words),
            "deinit" => {
                assert!(self.open.is_empty(), "a write left open");
                assert!(self.sent.is_empty(), "sent but not confirmed");
                self.stored.clear();
            }
            _ => (),
        }
    }

    /// A write belongs to the member that it answers.
    fn open_write(&mut self, object: u32, words: &[&str], memory: &[u8]) {
        let bytes = mailbox::object_bytes(memory, object).expect("an object");
        let earlier = self.open.insert(object, (plain_number(words[2]), bytes.to_vec()));
        assert!(earlier.is_none(), "a second write before the first was closed");
    }

    /// Judges a write by the pool that it names: it takes the lowest member that no
    /// write has open, and is busy exactly if there is none.
    fn judge_write(&self, printed: &Printed, words: &[&str], config: &Config) {
        if printed.name != "write" || printed.code == 1 {
            return;
        }
        let named = plain_number(words[1]);
        let pool = config.object(named).expect("a configured object").pool;
        let objects = (0..).zip(config.objects());
        let members =
            objects.filter(|(_, object)| object.kind == Kind::Sending && object.pool == pool);
        let members: Vec<u32> = members.map(|(number, _)| number).collect();
        assert_eq!(members.first(), Some(&named), "not the lowest of its pool");
        let free = members.iter().find(|member| !self.open.contains_key(member));
        let expected = free.map_or("-".to_string(), u32::to_string);
        assert_eq!(printed.answer, expected, "members {members:?}");
    }

    /// Judges the choice of who sends next: as the bits of the frames follow each
    /// other on the wire, a recessive 1 gives way to a dominant 0.
    fn judge_next(&mut self, printed: &Printed, words: &[&str], config: &Config, marks: &[bool]) {
        if printed.name != "next" {
            return;
        }
        let controller = plain_number(words[1]);
        let mut bits: Vec<(String, u32)> = Vec::new();
        for (&object, (_, bytes)) in &self.open {
            let place = config.object(object).expect("a configured object");
            if u32::from(place.controller) == controller && !self.sent.contains(&object) {
                bits.push((on_the_wire(bytes), object));
            }
        }
        bits.sort();
        if marks[controller as usize] {
            bits.clear();
        }
        self.contests += usize::from(bits.len() > 1);
        let expected = bits.first().map_or("none".to_string(), |(_, object)| object.to_string());
        assert_eq!(printed.answer, expected, "{bits:?}");
    }

    /// A sent event belongs to a write that is open, and there is one for each.
    fn leave(&mut self, object: u32) {
        assert!(self.open.contains_key(&object), "sent but not written");
        assert!(self.sent.insert(object), "sent twice");
    }

    /// A record of kind 1 or 7 closes a write and carries its handle: kind 1 if the
    /// frame was sent since, else kind 7, and the write poll closes only what was.
    fn close(&mut self, poll: &str, record: &[u32]) {
        assert!(["poll-write", "poll-mode", "poll-busoff"].contains(&poll), "{poll} closes");
        if self.sent.remove(&record[1]) {
            assert_eq!(record[0], 1, "sent but cancelled");
        } else {
            assert_eq!(record[0], 7, "confirmed but not sent");
            assert_ne!(poll, "poll-write");
        }
        let (handle, _) = self.open.remove(&record[1]).expect("an open write");
        assert_eq!(record[2], handle);
    }

    /// Writes are open on STARTED controllers only: whatever leaves STARTED closes them.
    fn judge_open(&self, config: &Config, modes: &[u32]) {
        for &object in self.open.keys() {
            let place = config.object(object).expect("a configured object");
            assert_eq!(modes[usize::from(place.controller)], 1, "object {object} is left open");
        }
    }

    fn store(&mut self, answer: &str, words: &[&str]) {
        let Some(object) = answer.strip_prefix("stored:") else {
            return;
        };
        let digits = words[2].trim_start_matches("0x");
        let identifier = u32::from_str_radix(digits, 16).expect("hex");
        let data = words[3..].concat();
        let length = if data == "-" { 0 } else { data.len() as u32 / 2 };
        let earlier = self.stored.insert(plain_number(object), (identifier, length));
        assert!(earlier.is_none(), "stored in a full object");
    }

    /// The bytes of an open write do not change.
    fn compare(&self, memory: &[u8]) {
        for (object, (_, bytes)) in &self.open {
            assert_eq!(mailbox::object_bytes(memory, *object), Some(&bytes[..]));
        }
    }
}

/// Judges the order of closings: rising, and those of a controller right before its
/// own mode or bus-off record.
fn judge_order(printed: &Printed, config: &Config) {
    for part in printed.records.split_inclusive(|record| matches!(record[0], 3 | 4)) {
        let closings = part.iter().filter(|record| matches!(record[0], 1 | 7));
        let closed: Vec<u32> = closings.map(|record| record[1]).collect();
        assert!(closed.is_sorted_by(|one, next| one < next), "{closed:?}");
        let Some([3 | 4, controller, ..]) = part.last().map(|record| &record[..]) else {
            continue;
        };
        for object in closed {
            let place = config.object(object).expect("a configured object");
            assert_eq!(u32::from(place.controller), *controller, "object {object}");
        }
    }
}

/// Judges what the writer wrote by reading it, and why it did not.
fn judge_config(printed: &Printed, words: &[&str], config: &Config) {
    if printed.name != "config" {
        return;
    }
    let (version, room) = (plain_number(words[1]), plain_number(words[2]) as usize);
    let bytes = 8 + 12 * config.objects().len();
    let own = (0..).zip(config.objects()).all(|(h, o)| o.kind == Kind::Receiving || o.pool == h);
    let said = config.controllers() > 0 && (version == 2 || version == 1 && own);
    let reason = if !said {
        9
    } else if room < bytes {
        32
    } else {
        0
    };
    assert_eq!((printed.code, printed.reason), (u32::from(reason > 0), reason), "{words:?}");
    if reason > 0 {
        assert_eq!(printed.answer, "-");
        return;
    }
    let digits = printed.answer.as_bytes().chunks(2);
    let pairs = digits.map(|pair| std::str::from_utf8(pair).expect("plain text"));
    let read: Vec<u8> =
        pairs.map(|pair| u8::from_str_radix(pair, 16).expect("hex digits")).collect();
    assert_eq!(read.len(), bytes);
    let (read_version, read) = Config::read_with_version(&read).expect("a good configuration");
    assert_eq!((read_version as u32, &read), (version, config));
}

/// The bits that decide who goes on sending, of the bytes of an object.
fn on_the_wire(bytes: &[u8]) -> String {
    let bits: String = bytes[..4].iter().map(|byte| format!("{byte:08b}")).collect();
    match bits.strip_prefix('1') {
        Some(rest) => format!("{}1{}", &rest[2..13], &rest[13..]),
        None => format!("{}0", &bits[21..]),
    }
}

/// Plays one night and keeps the books; gives how many calls were accepted and
/// refused, and how often several frames competed.
fn judge(seed: u64, style: Style, lines: usize) -> (usize, usize, usize) {
    let mut maker = Maker::new(seed, style);
    let mut modes = ModeBook::default();
    let mut frames = FrameBook::default();
    let (mut yes, mut no) = (0, 0);
    for _ in 0..lines {
        let line = maker.next_line();
        assert!(line.ends_with(b"\n") && !line[..line.len() - 1].contains(&b'\n'));
        let bench = maker.bench();
        assert!(bench.state().is_sound());
        frames.compare(bench.memory());
        let text = String::from_utf8_lossy(&line);
        let words = words(&text);
        if maker.last_answer().is_empty() {
            modes.note_silent(&words);
        }
        let Some(printed) = Printed::read(maker.last_answer()) else {
            continue;
        };
        judge_config(&printed, &words, &bench.state().config);
        frames.judge_write(&printed, &words, &bench.state().config);
        if printed.code != 0 {
            no += 1;
            continue;
        }
        yes += 1;
        judge_order(&printed, &bench.state().config);
        frames.judge_next(&printed, &words, &bench.state().config, &modes.marks);
        modes.note(&printed.name, &words);
        frames.note(&printed, &words, bench.memory());
        frames.judge_open(&bench.state().config, &modes.modes);
        for (place, mode) in bench.state().controllers.iter().zip(modes.modes) {
            assert_eq!(place.mode.number(), mode);
        }
    }
    (yes, no, frames.contests)
}

#[test]
fn calm_nights_keep_the_books() {
    let mut all = 0;
    for seed in 0..8 {
        let (yes, no, contests) = judge(seed, Style::Calm, 10_000);
        assert!(yes > 12 * no, "seed {seed}: {yes} accepted, {no} refused");
        all += contests;
    }
    assert!(all > 1000, "{all} choices of several frames");
}

#[test]
fn wild_nights_keep_the_books() {
    let mut all = 0;
    for seed in 100..108 {
        let (yes, no, contests) = judge(seed, Style::Wild, 10_000);
        assert!(yes > 1000 && no > 1000, "seed {seed}: {yes} accepted, {no} refused");
        all += contests;
    }
    assert!(all > 200, "{all} choices of several frames");
}

#[test]
fn a_night_depends_on_seed_and_style_only() {
    for style in [Style::Calm, Style::Wild] {
        let night = |seed| {
            let mut maker = Maker::new(seed, style);
            (0..2000).flat_map(|_| maker.next_line()).collect::<Vec<u8>>()
        };
        assert_eq!(night(7), night(7));
        assert_ne!(night(7), night(8));
    }
}

#[test]
fn a_wild_night_with_an_odd_seed_has_an_open_end() {
    for (seed, style, open) in
        [(1, Style::Calm, false), (2, Style::Wild, false), (3, Style::Wild, true)]
    {
        let lines: Vec<Vec<u8>> = nights::night(seed, 50, style).collect();
        assert_eq!(lines.len(), 50);
        assert!(lines[..49].iter().all(|line| line.ends_with(b"\n")));
        assert_eq!(lines[49].ends_with(b"\n"), !open, "seed {seed}");
    }
}

#[test]
fn the_maker_answers_as_the_program_does() {
    for style in [Style::Calm, Style::Wild] {
        let mut maker = Maker::new(3, style);
        let (mut script, mut answers, mut output) = (Vec::new(), Vec::new(), Vec::new());
        for _ in 0..5000 {
            script.extend(maker.next_line());
            answers.extend_from_slice(maker.last_answer());
        }
        let night =
            pump_model::night::play(&script[..], &mut output).expect("no trouble in memory");
        night.end(&mut answers);
        assert_eq!(output, answers);
    }
}

/// The lines of some nights with what was answered to each, without its line number.
fn answered(seeds: std::ops::Range<u64>, style: Style, lines: usize) -> Vec<(String, String)> {
    let mut all = Vec::new();
    for seed in seeds {
        let mut maker = Maker::new(seed, style);
        for _ in 0..lines {
            let line = String::from_utf8_lossy(&maker.next_line()).trim_end().to_string();
            let answer = String::from_utf8_lossy(maker.last_answer()).trim_end().to_string();
            let answer = answer.split_once(' ').map_or("", |(_, answer)| answer).to_string();
            all.push((line, answer));
        }
    }
    all
}

/// How many of the lines are answered like this.
fn count(lines: &[(String, String)], answer: &str) -> usize {
    lines.iter().filter(|(_, a)| a.starts_with(answer)).count()
}

#[test]
fn what_nights_are_made_of() {
    for style in [Style::Calm, Style::Wild] {
        let lines = answered(0..10, style, 10_000);
        configurations_are_said_in_words(style, &lines);
        pools_fill_up_and_are_named_wrongly(style, &lines);
        it_is_asked_who_sends_next(style, &lines);
        the_writer_says_yes_and_no(style, &lines);
        stops_and_bus_offs_meet_frames_that_had_left(style, &lines);
        error_counts_cross_each_limit(style, &lines);
        error_counts_are_refused(style, &lines);
        errors_are_asked_for(style, &lines);
    }
}

fn configurations_are_said_in_words(style: Style, lines: &[(String, String)]) {
    let least = if style == Style::Calm { 30 } else { 60 };
    let count = |line: &str, answer: &str| {
        lines.iter().filter(|(l, a)| l == line && a.starts_with(answer)).count()
    };
    assert!(count("init", "init 0 0") > least, "{} accepted", count("init", "init 0 0"));
    // Calm nights say good ones, at times too early.
    let bad = count("init", "init 1 9");
    assert!(if style == Style::Calm { bad == 0 } else { bad > 40 }, "{bad} bad ones");
    let added = |word: &str| {
        let added = |(l, a): &&(String, String)| l.starts_with("object ") && a.is_empty();
        lines.iter().filter(added).filter(|(l, _)| l.contains(word)).count()
    };
    let (objects, pools) = (added(""), added(" pool "));
    assert!(objects > 300 && objects < 10_000, "{objects} objects in 100,000 lines");
    assert!(pools > 100, "{pools} of {objects} with a pool");
}

fn pools_fill_up_and_are_named_wrongly(style: Style, lines: &[(String, String)]) {
    let (busy, wrong) = (count(lines, "write 2 36 -"), count(lines, "write 1 2 -"));
    assert!(busy > 100, "{style:?}: {busy} busy");
    assert!(wrong > 100, "{style:?}: {wrong} named wrongly");
    let by_another = |(line, answer): &&(String, String)| {
        let named = line.split_ascii_whitespace().nth(1);
        answer.strip_prefix("write 0 0 ").is_some_and(|member| named != Some(member))
    };
    let others = lines.iter().filter(by_another).count();
    assert!(others > 1000, "{style:?}: {others} writes are taken by another member");
}

fn it_is_asked_who_sends_next(style: Style, lines: &[(String, String)]) {
    let (all, none) = (count(lines, "next 0 0 "), count(lines, "next 0 0 none"));
    assert!(none > 100 && all - none > 100, "{style:?}: {none} of {all} are none");
}

fn the_writer_says_yes_and_no(style: Style, lines: &[(String, String)]) {
    let least = if style == Style::Calm { 10 } else { 50 };
    let (yes, bad) = (count(lines, "config 0 0 "), count(lines, "config 1 9 -"));
    assert!(yes > 50 && bad > least, "{style:?}: {yes} written, {bad} cannot be said");
    let short = count(lines, "config 1 32 -");
    assert!(style == Style::Calm || short > least, "{style:?}: {short} are short");
}

/// The kinds of the records of mode polls and bus-off polls, a word for each
/// controller: those of its closings, then 3 or 4.
fn closings(lines: &[(String, String)]) -> Vec<String> {
    let polls = lines.iter().map(|(_, answer)| answer).filter(|answer| {
        answer.starts_with("poll-mode 0 0 ") || answer.starts_with("poll-busoff 0 0 ")
    });
    let records = polls.flat_map(|answer| answer.split('[').skip(1));
    let kinds: String = records.filter_map(|record| record.chars().next()).collect();
    kinds.split_inclusive(['3', '4']).map(str::to_string).collect()
}

fn stops_and_bus_offs_meet_frames_that_had_left(style: Style, lines: &[(String, String)]) {
    let least = if style == Style::Calm { 80 } else { 25 };
    let closings = closings(lines);
    for (what, last) in [("stops", '3'), ("bus-offs", '4')] {
        let count = |test: fn(&str) -> bool| {
            closings.iter().filter(|kinds| kinds.ends_with(last) && test(kinds)).count()
        };
        let sent = count(|kinds| kinds.contains('1') && !kinds.contains('7'));
        let both = count(|kinds| kinds.contains('1') && kinds.contains('7'));
        // Neither all confirmations nor all cancellations come first.
        let turns = count(|kinds| kinds.contains("17") && kinds.contains("71"));
        assert!(
            sent > least && both > least && turns > least / 2,
            "{style:?} {what}: {sent} with sent frames alone, {both} with both, {turns} in turn"
        );
    }
}

/// The counts that accepted events set, transmit and receive.
fn accepted_counts(lines: &[(String, String)]) -> Vec<[u32; 2]> {
    let events = lines.iter().filter(|(_, answer)| answer.starts_with("errors 0 0 "));
    events
        .map(|(line, _)| {
            let words = words(line);
            [words[2], words[3]].map(plain_number)
        })
        .collect()
}

fn error_counts_cross_each_limit(style: Style, lines: &[(String, String)]) {
    let least = if style == Style::Calm { 60 } else { 10 };
    let counts = accepted_counts(lines);
    for (side, name) in ["transmit", "receive"].into_iter().enumerate() {
        for edge in [0, 127, 128, 255, 256, 65_535] {
            let met = counts.iter().filter(|pair| pair[side] == edge).count();
            assert!(met > least, "{style:?}: {met} events with a {name} count of {edge}");
        }
    }
    let passive = count(lines, "errors 0 0 - [8 ");
    let off = counts.iter().filter(|[transmit, _]| *transmit > 255).count();
    assert!(passive > 5 * least && off > 5 * least, "{style:?}: {passive} passive, {off} off");
    let received = counts.iter().filter(|[transmit, receive]| *transmit < 128 && *receive > 255);
    assert!(received.count() > least, "{style:?}: passive by a large receive count alone");
}

fn error_counts_are_refused(style: Style, lines: &[(String, String)]) {
    let reasons: &[u32] = match style {
        Style::Calm => &[4, 5, 35, 37, 43],
        Style::Wild => &[4, 5, 32, 35, 37, 43],
    };
    for reason in reasons {
        let met = count(lines, &format!("errors 1 {reason} -"));
        assert!(met > 5, "{style:?}: {met} events are refused with {reason}");
    }
    for word in [2, 3] {
        let just_too_large = |(line, answer): &&(String, String)| {
            answer == "errors 1 43 -" && plain_number(words(line)[word]) == 65_536
        };
        let met = lines.iter().filter(just_too_large).count();
        assert!(met > 2, "{style:?}: {met} events with 65,536 as word {word}");
    }
    let unread = |(line, answer): &&(String, String)| {
        answer.starts_with("? ")
            && ["errors ", "errorst", "rxerr", "txerr"].iter().any(|start| line.starts_with(start))
    };
    let met = lines.iter().filter(unread).count();
    assert!(if style == Style::Calm { met == 0 } else { met > 100 }, "{style:?}: {met} unread");
}

fn errors_are_asked_for(style: Style, lines: &[(String, String)]) {
    let least = if style == Style::Calm { 200 } else { 40 };
    for answer in ["errorstate 0 0 0", "errorstate 0 0 1", "errorstate 0 0 2"] {
        let met = count(lines, answer);
        assert!(met > least, "{style:?}: {met} times {answer}");
    }
    for name in ["rxerrors", "txerrors"] {
        let (all, none) = (count(lines, &format!("{name} 0 0 ")), format!("{name} 0 0 0"));
        let none = lines.iter().filter(|(_, answer)| *answer == none).count();
        let most = count(lines, &format!("{name} 0 0 255"));
        assert!(
            none > least / 4 && most > least / 4 && all - none - most > least / 4,
            "{style:?} {name}: {none} of {all} are 0, {most} are 255"
        );
    }
    if style == Style::Wild {
        for name in ["errorstate", "rxerrors", "txerrors"] {
            for no in ["1 32 0", "1 5 0", "1 4 0"] {
                let met = count(lines, &format!("{name} {no}"));
                assert!(met > 5, "{met} times {name} {no}");
            }
        }
    }
}

#[test]
fn a_wild_night_has_every_trouble() {
    let lines = answered(0..8, Style::Wild, 10_000);
    for trouble in [
        "line too long",
        "unknown command",
        "a word is missing",
        "a word too many",
        "not a number",
        "number too large",
        "not an identifier",
        "identifier too long",
        "not hex digits",
        "odd number of digits",
        "not one byte",
        "not a mode",
        "unknown poll",
        "unknown kind of object",
        "unexpected word",
        "handle too large",
        "sheet too long",
        "memory too long",
        "room too large",
        "does not fit a byte",
        "too many objects",
    ] {
        let answer = format!("? {trouble}");
        let count = lines.iter().filter(|(_, a)| *a == answer).count();
        assert!(count > 2, "{trouble}: {count}");
    }
}
