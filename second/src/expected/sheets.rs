//! The sheets: the text of an input read, and what the sheet program must print of it.

#![forbid(unsafe_code)]

use second::{calculate, read_slice, LOG, SLICES, TABLE};

/// The bytes of a text: `#` starts a comment, the rest is hexadecimal digits with blanks anywhere, and 00*315 is 315 bytes of 00.
pub fn bytes_of(text: &str) -> Vec<u8> {
    let mut digits = String::new();
    let lines = text
        .lines()
        .map(|line| line.split('#').next().unwrap_or(""));
    for word in lines.flat_map(str::split_whitespace) {
        match word.split_once('*') {
            None => digits += word,
            Some((before, times)) => {
                digits += before;
                assert!(digits.len() >= 2 && digits.len() % 2 == 0, "a whole byte");
                let last = digits.split_off(digits.len() - 2);
                digits += &last.repeat(times.parse().expect("how many times"));
            }
        }
    }
    assert!(digits.len() % 2 == 0, "an even number of digits");
    (0..digits.len() / 2)
        .map(|place| &digits[2 * place..2 * place + 2])
        .map(|byte| u8::from_str_radix(byte, 16).expect("hexadecimal digits"))
        .collect()
}

/// What is printed for a log and a pile record, one behind the other; another length is refused. A sheet brings no extra record.
pub fn sheet(bytes: &[u8]) -> String {
    let (log, pile) = bytes.split_at(bytes.len().min(LOG));
    let mut table = [0; TABLE];
    let answer = calculate(log, pile, None, &mut table);
    let mut text = format!(
        "answer {} {} {}\n",
        answer.refusal, answer.row, answer.field
    );
    if answer.refusal != 0 {
        return text;
    }
    for place in 0..SLICES as u32 {
        let slice = read_slice(&table, place);
        if slice.thickness > 0 {
            text += &format!(
                "slice {} {} {} {}\n",
                slice.top, slice.thickness, slice.friction, slice.factor
            );
        }
    }
    text += &format!(
        "total {} {} {} {} {}\n",
        answer.line, answer.tip, answer.shaft, answer.capacity, answer.uplift
    );
    text
}

#[cfg(test)]
mod tests {
    use super::{bytes_of, sheet};
    use std::fs;

    #[test]
    fn bytes_of_a_text() {
        let text = "# 11\n4E20 D 0\r\n00*2 # 22\nff*1";
        assert_eq!(bytes_of(text), [0x4E, 0x20, 0xD0, 0, 0, 0xFF]);
    }

    /// A stored input whose first line names a refusal gets it.
    #[test]
    fn refusals_by_title() {
        let folder = concat!(env!("CARGO_MANIFEST_DIR"), "/../tests/sheet");
        let mut named = 0;
        for entry in fs::read_dir(folder).expect("stored inputs") {
            let path = entry.expect("a file").path();
            if path.extension().map_or(true, |ending| ending != "hex") {
                continue;
            }
            let text = fs::read_to_string(&path).expect("text");
            let title = text.lines().next().unwrap_or("");
            if let Some((_, number)) = title.split_once("refusal ") {
                let number: String = number.chars().take_while(char::is_ascii_digit).collect();
                let answer = format!("answer {number} ");
                assert!(sheet(&bytes_of(&text)).starts_with(&answer), "{title}");
                named += 1;
            }
        }
        assert!(named > 0);
    }
}
