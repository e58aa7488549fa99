//! Reading the lines of a night and what was printed for them.

/// A call as printed: name, code, reason, answer and records.
pub struct Printed {
    pub name: String,
    pub code: u32,
    pub reason: u32,
    pub answer: String,
    pub records: Vec<Vec<u32>>,
}

impl Printed {
    /// Reads the printed line of a call; `None` for other lines.
    pub fn read(answer: &[u8]) -> Option<Printed> {
        let text = std::str::from_utf8(answer).ok()?.trim_end();
        let mut words = text.splitn(6, ' ').skip(1);
        let name = words.next()?.to_string();
        let code = words.next()?.parse().ok()?;
        if matches!(name.as_str(), "?" | "data" | "show" | "state") {
            return None;
        }
        let reason = words.next()?.parse().ok()?;
        let answer = words.next()?.to_string();
        let rest = words.next().unwrap_or("");
        let records = rest
            .split('[')
            .skip(1)
            .map(|record| {
                let record = record.trim_end_matches([']', ' ']);
                record.split(' ').map(|word| word.parse().expect("a number")).collect()
            })
            .collect();
        Some(Printed { name, code, reason, answer, records })
    }
}

/// The words of a line that was understood.
pub fn words(line: &str) -> Vec<&str> {
    let text = line.split('#').next().expect("a first part");
    let words = text.split(|byte: char| byte == ',' || byte.is_ascii_whitespace());
    words.filter(|word| !word.is_empty()).collect()
}

/// A number as a script may write it.
pub fn plain_number(word: &str) -> u32 {
    match word.strip_prefix("0x") {
        Some(digits) => u32::from_str_radix(digits, 16).expect("hex"),
        None => word.parse().expect("decimal"),
    }
}
