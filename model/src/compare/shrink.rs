//! Making a night that differs smaller while it still differs.

use super::{objects, shorten, spelled};

/// A night that differs, and the smaller nights tried in its place.
pub struct Shrinker<F> {
    lines: Vec<Vec<u8>>,
    trials: usize,
    most_trials: usize,
    differs: F,
}

/// What is left of a night.
#[derive(Debug, PartialEq, Eq)]
pub struct Shrunk {
    pub lines: Vec<Vec<u8>>,
    pub trials: usize,
}

impl<F: FnMut(&[Vec<u8>]) -> bool> Shrinker<F> {
    /// Starts with the lines of a night that differs, with their line ends.
    pub fn new(lines: Vec<Vec<u8>>, most_trials: usize, differs: F) -> Shrinker<F> {
        Shrinker { lines, trials: 0, most_trials, differs }
    }

    /// Shrinks until nothing can be taken away, or all trials are used up.
    pub fn shrink(mut self) -> Shrunk {
        self.remove_lines();
        self.spell_out();
        loop {
            self.remove_lines();
            // With fewer objects or shorter words other lines may go too.
            let dropped = self.drop_objects();
            let shortened = self.shorten_lines();
            if !dropped && !shortened {
                return Shrunk { lines: self.lines, trials: self.trials };
            }
        }
    }

    /// Puts a smaller night in place of the present one if it still differs.
    fn replace(&mut self, smaller: impl FnOnce(&[Vec<u8>]) -> Vec<Vec<u8>>) -> bool {
        if self.trials == self.most_trials {
            return false;
        }
        self.trials += 1;
        let lines = smaller(&self.lines);
        let differs = (self.differs)(&lines);
        if differs {
            self.lines = lines;
        }
        differs
    }

    /// Removes pieces of half the night, of a quarter and so on, at last single
    /// lines for as long as any can go.
    fn remove_lines(&mut self) {
        let mut size = (self.lines.len() / 2).max(1);
        loop {
            let removed = self.remove_pieces(size);
            if size > 1 {
                size /= 2;
            } else if !removed {
                return;
            }
        }
    }

    /// Removes what can go in pieces of so many lines. The last come first: what
    /// follows the difference can go whole, and what a line needs stands before it.
    fn remove_pieces(&mut self, size: usize) -> bool {
        let before = self.lines.len();
        let mut end = before;
        while end > 0 {
            let start = end.saturating_sub(size);
            self.replace(|lines| [&lines[..start], &lines[end..]].concat());
            end = start;
        }
        self.lines.len() < before
    }

    /// Puts configurations in words as bytes, all at once: then their objects can be
    /// dropped, and the lines that said them can go. It makes lines longer, so it is
    /// tried once.
    fn spell_out(&mut self) {
        if spelled::out(&self.lines) != self.lines {
            self.replace(spelled::out);
        }
    }

    /// Drops configured objects, the last first.
    fn drop_objects(&mut self) -> bool {
        let mut dropped = false;
        for place in 0..self.lines.len() {
            for object in (0..objects::count(&self.lines[place])).rev() {
                dropped |= self.replace(|lines| objects::without(lines, place, object));
            }
        }
        dropped
    }

    /// Puts simpler lines in place of lines.
    fn shorten_lines(&mut self) -> bool {
        let mut shortened = false;
        for place in 0..self.lines.len() {
            while self.shorten_line(place) {
                shortened = true;
            }
        }
        shortened
    }

    fn shorten_line(&mut self, place: usize) -> bool {
        shorten::simpler(&self.lines[place]).into_iter().any(|line| {
            self.replace(|lines| {
                let mut lines = lines.to_vec();
                lines[place] = line;
                lines
            })
        })
    }
}

#[cfg(test)]
mod tests {
    use super::*;

    /// Shrinks a night of text with at most so many trials.
    fn shrunk(
        night: &[String],
        most_trials: usize,
        mut differs: impl FnMut(&[&str]) -> bool,
    ) -> (Vec<String>, usize) {
        let text = |line: &[u8]| String::from_utf8(line.to_vec()).expect("plain text");
        let lines = night.iter().map(|line| line.clone().into_bytes()).collect();
        let shrinker = Shrinker::new(lines, most_trials, |lines: &[Vec<u8>]| {
            let lines: Vec<String> = lines.iter().map(|line| text(line)).collect();
            differs(&lines.iter().map(|line| line.as_str()).collect::<Vec<&str>>())
        });
        let shrunk = shrinker.shrink();
        (shrunk.lines.iter().map(|line| text(line)).collect(), shrunk.trials)
    }

    /// Different lines that no shortening makes simpler.
    fn night(count: usize) -> Vec<String> {
        let letters = |number: usize| {
            let digits = format!("{number:04}");
            digits.bytes().map(|digit| char::from(digit - b'0' + b'a')).collect::<String>()
        };
        (0..count).map(|number| format!("{}\n", letters(number))).collect()
    }

    #[test]
    fn only_the_lines_that_matter_are_left() {
        let night = night(10_000);
        for needed in [vec![0], vec![9999], vec![4711], vec![0, 9999], vec![17, 18, 5000, 7777]] {
            let needed: Vec<&String> = needed.iter().map(|&line| &night[line]).collect();
            let differs = |lines: &[&str]| needed.iter().all(|line| lines.contains(&line.as_str()));
            let (left, trials) = shrunk(&night, 5000, differs);
            assert!(left.iter().eq(needed.iter().copied()), "{left:?}");
            assert!(trials < 200, "{trials} trials");
        }
    }

    #[test]
    fn order_is_kept() {
        let night = night(100);
        let (first, last) = (night[30].trim_end(), night[60].trim_end());
        let place = |lines: &[&str], word: &str| lines.iter().position(|line| line.contains(word));
        let differs = |lines: &[&str]| match (place(lines, first), place(lines, last)) {
            (Some(first), Some(last)) => first < last,
            _ => false,
        };
        assert_eq!(shrunk(&night, 5000, differs).0, [night[30].clone(), night[60].clone()]);
    }

    #[test]
    fn single_lines_are_tried_again_once_others_are_gone() {
        // The count must be even: lines go in pairs, and then line by line no more.
        let differs = |lines: &[&str]| lines.len() >= 6 && lines.len().is_multiple_of(2);
        assert_eq!(shrunk(&night(64), 5000, differs).0.len(), 6);
        // A line can go only once all before it are gone.
        let night = night(8);
        let differs =
            |lines: &[&str]| lines.iter().rev().zip(night.iter().rev()).all(|(a, b)| a == b);
        assert_eq!(shrunk(&night, 5000, differs).0, Vec::<String>::new());
    }

    #[test]
    fn trials_are_limited() {
        for most in [0, 1, 7, 50] {
            let mut asked = 0;
            let differs = |lines: &[&str]| {
                asked += 1;
                lines.len() > 900
            };
            let (left, trials) = shrunk(&night(1000), most, differs);
            assert!(left.len() > 900);
            assert_eq!((asked, trials), (most, most));
        }
    }

    #[test]
    fn a_difference_that_does_not_come_again_leaves_the_night_as_it_is() {
        let night = night(20);
        assert_eq!(shrunk(&night, 5000, |_| false).0, night);
    }

    #[test]
    fn lines_are_shortened() {
        let night = ["\tget  0x03 # the mode\r\n", "write 5 77 40000123 0102030405060708\r\n", "x"];
        let differs = |lines: &[&str]| {
            lines.iter().any(|line| {
                let words: Vec<&str> = line.split_whitespace().collect();
                matches!(words[..], ["write", "5", _, _, data] if data.len() >= 6)
            })
        };
        let (left, _) = shrunk(&night.map(str::to_string), 5000, differs);
        assert_eq!(left, ["write 5 0 0 000000\n"]);
    }

    #[test]
    fn a_configuration_in_words_becomes_bytes() {
        let object =
            |padding: &str| format!("object send controller 0 payload 8 padding {padding}\n");
        let mut night: Vec<String> =
            (0..32).map(|number| object(&format!("{number:02x}"))).collect();
        night.insert(0, "controllers 1\n".to_string());
        night.extend(["init\n".to_string(), "sent 17\n".to_string()]);
        // The error is on the object with the padding 11, said in words or as bytes.
        let differs = |lines: &[&str]| {
            let said = lines.contains(&object("11").as_str()) && lines.contains(&"init\n");
            let bytes =
                lines.iter().any(|line| line.starts_with("init") && line.contains("00000811"));
            (said || bytes) && lines.iter().any(|line| line.starts_with("sent "))
        };
        let (left, _) = shrunk(&night, 5000, differs);
        assert_eq!(left, ["init 434842000100010000000811\n", "sent \n"]);
    }

    #[test]
    fn objects_are_dropped_and_lines_follow() {
        let record = |object: usize| format!("{object:024x}");
        let records: String = (0..32).map(record).collect();
        let night = [format!("init 4348420001042000{records}\n"), "sent 0x11\n".to_string()];
        // The error is on the object with the record 17, wherever it stands.
        let differs = |lines: &[&str]| {
            let &[init, sent] = lines else { return false };
            let object = sent.trim_end().trim_start_matches("sent ");
            let object = if object == "0x11" { Ok(17) } else { object.parse::<usize>() };
            let at = object.map_or(usize::MAX, |object| 21 + 24 * object);
            init.get(at..).is_some_and(|from| from.starts_with(&record(17)))
        };
        let (left, _) = shrunk(&night, 5000, differs);
        assert_eq!(left, [format!("init 4348420001040100{}\n", record(17)), "sent 0\n".into()]);
    }
}
