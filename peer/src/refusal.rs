//! Refusals: what was refused, by whom, and where. 0 stands for a place that cannot differ.

#[derive(Clone, Copy, PartialEq, Debug)]
pub struct Refusal {
    pub number: u8,
    pub place: usize,
}

impl Refusal {
    pub fn at(number: u8, place: impl Into<usize>) -> Refusal {
        Refusal { number, place: place.into() }
    }

    pub fn without_place(number: u8) -> Refusal {
        Refusal { number, place: 0 }
    }

    /// The part that refused.
    pub fn layer(self) -> &'static str {
        match self.number {
            1 | 2 | 4..=8 => "call",
            3 | 23 => "memory",
            9 | 10 => "command",
            11 | 12 => "cipher",
            20..=22 => "session",
            30 | 31 => "keys",
            81..=84 => "frame",
            number => panic!("there is no refusal {number}"),
        }
    }
}
