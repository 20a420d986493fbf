//! The program `bench`: reads a listing of calls, makes them on a fresh board, prints a line for each.

use crate::board::{answers, Answer, Board, Event};
use crate::refusal::Refusal;
use std::io::{self, BufRead, Write};

/// The call that a line (without its end) stands for; none if it is malformed.
fn call_of(line: &[u8]) -> Option<Event> {
    if line.len() != 12 {
        return None;
    }
    let spaces = line[1..].iter().take_while(|&&byte| byte == b' ').count();
    let digits = &line[1 + spaces..];
    if digits.is_empty() || !digits.iter().all(u8::is_ascii_digit) {
        return None;
    }
    let mut number: u64 = 0;
    for digit in digits {
        number = 10 * number + (digit - b'0') as u64;
    }
    match line[0] {
        b'B' if number <= 255 => Some(Event::Byte(number as u8)),
        b'S' if number == 0 => Some(Event::Silence),
        b'Q' if number == 0 => Some(Event::Question),
        b'R' if number < u32::MAX as u64 => Some(Event::PowerUp(Some(number as u32))),
        b'R' if number == u32::MAX as u64 => Some(Event::PowerUp(None)),
        _ => None,
    }
}

/// The answer to a malformed line, which never reaches the board.
const MALFORMED: Answer = Answer { refusal: Some(Refusal { number: 8, place: 0 }), shown: Vec::new() };

/// What the board answers to a line.
pub fn answer_to(board: &mut Board, line: &[u8]) -> Answer {
    call_of(line).map_or(MALFORMED, |event| board.call(event))
}

/// The line printed for an answer, without its end; with places it has the refusal's layer and place, too.
fn row(event: usize, answer: &Answer, places: bool) -> String {
    let mut row = format!("{:6}{:4}", event % 1_000_000, answer.number());
    if places {
        let (layer, place) = match answer.refusal {
            Some(refusal) => (refusal.layer(), refusal.place),
            None => ("-", 0),
        };
        row += &format!(" {layer:<7}{place:11}");
    }
    for byte in &answer.shown {
        row += &format!("{byte:4}");
    }
    row
}

pub fn run(mut input: impl BufRead, mut output: impl Write, places: bool) -> io::Result<()> {
    let mut text = Vec::new();
    input.read_to_end(&mut text)?;
    let mut lines: Vec<&[u8]> = text.split(|&byte| byte == b'\n').collect();
    // What is behind the last line end is no line.
    lines.pop();
    let calls: Vec<Option<Event>> = lines.iter().map(|line| call_of(line)).collect();
    let events: Vec<Event> = calls.iter().flatten().copied().collect();
    let mut answers = answers(&events).into_iter();
    for (i, call) in calls.iter().enumerate() {
        let answer = call.and_then(|_| answers.next()).unwrap_or(MALFORMED);
        writeln!(output, "{}", row(i + 1, &answer, places))?;
    }
    output.flush()
}

#[cfg(test)]
mod tests {
    use super::*;

    fn printed(listing: &[u8], places: bool) -> String {
        let mut output = Vec::new();
        run(listing, &mut output, places).unwrap();
        String::from_utf8(output).unwrap()
    }

    #[test]
    fn worked_listing_of_the_rules() {
        let listing = b"\
B        128
B          1
B          0
B         25
B        232
B         98
Q          0
";
        let expected = "     1   0
     2   0
     3   0
     4   0
     5   0
     6   0   0 128   5   0  58   0  88  86 181  68 255
     7   0   2
";
        assert_eq!(printed(listing, false), expected);
    }

    #[test]
    fn worked_places_of_the_rules() {
        let listing = b"\
B          7
B
Q          0
";
        let expected = "     1  81 frame            7  81
     2   8 call             0
     3   0 -                0   2
";
        assert_eq!(printed(listing, true), expected);
    }

    #[test]
    fn columns_of_a_place() {
        let shown = vec![0, 128];
        let widest = Answer { refusal: Some(Refusal::at(23, 0xFF_FFFFusize)), shown: shown.clone() };
        assert_eq!(row(72_903, &widest, true), " 72903  23 memory    16777215   0 128");
        assert_eq!(row(72_903, &widest, false), " 72903  23   0 128");
        let command = Answer { refusal: Some(Refusal::at(9, 0x16usize)), shown };
        assert_eq!(row(1_000_001, &command, true), "     1   9 command         22   0 128");
    }

    #[test]
    fn forms_of_a_line() {
        assert_eq!(call_of(b"B00000000255"), Some(Event::Byte(255)));
        assert_eq!(call_of(b"S          0"), Some(Event::Silence));
        assert_eq!(call_of(b"Q  000000000"), Some(Event::Question));
        assert_eq!(call_of(b"R 4294967294"), Some(Event::PowerUp(Some(u32::MAX - 1))));
        assert_eq!(call_of(b"R04294967295"), Some(Event::PowerUp(None)));
        let malformed: [&[u8]; 14] = [
            b"", b"B", b"B         1", b"B           1", b"B           ", b"B        256", b"S          1",
            b"Q          1", b"R 4294967296", b"R99999999999", b"b          1", b"B1          ",
            b"B\t         1", b"B        1 2",
        ];
        for line in malformed {
            assert_eq!(call_of(line), None);
        }
    }

    #[test]
    fn bytes_behind_the_last_line_are_none() {
        assert_eq!(printed(b"", false), "");
        assert_eq!(printed(b"Q          0", false), "");
        assert_eq!(printed(b"\nB          7\nB", false), "     1   8\n     2  81  81\n");
    }

    #[test]
    fn the_count_starts_again_at_a_million() {
        let text = printed(&b"\n".repeat(1_000_001), false);
        assert!(text.ends_with("999999   8\n     0   8\n     1   8\n"));
    }
}
