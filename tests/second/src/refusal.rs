//! The numbers of refusal, and what a call answers.

/// Why a call was refused; the value of each is its number in documents 01 and 02.
#[derive(Clone, Copy, Debug, PartialEq, Eq)]
pub enum Refusal {
    /// The graph size is not 1 to 150.
    Size = 1,
    /// The workers are not 1 to 64.
    Workers = 2,
    /// The store room is not 1 to 4,096.
    Room = 3,
    /// The length of the command list is no multiple of 16.
    ListLength = 4,
    /// There are over 4,096 commands.
    TooManyCommands = 5,
    /// A lent or handed-back list, or the state, has the wrong length.
    Length = 6,
    /// The kind is not 1 to 6.
    Kind = 7,
    /// The length of an identifier is wrong, or its first faulty character stands for a letter; of
    /// a worker change or checkpoint, its identifier is not thirteen characters 0.
    Identifier = 8,
    /// The check digit of an identifier is wrong.
    CheckDigit = 9,
    /// The chute is wrong for the kind.
    Chute = 10,
    /// A turn is dealt to a party above the largest worker count.
    Party = 11,
    /// The key is above the largest, or a handed-back state is out of range.
    OutOfRange = 12,
    /// The first faulty character of an identifier stands for a digit and is none.
    Digit = 13,
    /// The count of a worker change is not 1 to 64.
    Count = 14,
    /// Of an image that is opened from, an index passes the room, or keys along the chain do not
    /// ascend.
    Chain = 15,
    /// Of an image that is opened from, record 0 or a record on the chain is out of range.
    Record = 16,
}

impl Refusal {
    pub fn number(self) -> u64 {
        self as u64
    }
}

/// A refusal, and where the fault is.
#[derive(Clone, Copy, Debug, PartialEq, Eq)]
pub struct Fault {
    pub refusal: Refusal,
    /// The place of the refused command, from 1; 0 where none is.
    pub place: usize,
    /// The first faulty character of the identifier, from 1; 0 for a wrong length, and with any
    /// refusal but 8, 9 and 13.
    pub character: usize,
}

/// A refusal of no command and no character.
impl From<Refusal> for Fault {
    fn from(refusal: Refusal) -> Fault {
        Fault {
            refusal,
            place: 0,
            character: 0,
        }
    }
}

impl Fault {
    /// What the refused call answers: the number in bits 0 to 7, the place in bits 8 to 31 and the
    /// character from bit 32 on.
    pub fn answer(self) -> u64 {
        self.refusal.number() + ((self.place as u64) << 8) + ((self.character as u64) << 32)
    }
}

/// The answer of a call in words; a place or a character that is 0 is left out.
pub fn answer_words(answer: u64) -> String {
    let [number, place, character] = [answer & 0xff, answer >> 8 & 0xff_ffff, answer >> 32];
    if answer == 0 {
        return "accepted".to_string();
    }
    let mut words = format!("refused {number}");
    for (part, value) in [("place", place), ("character", character)] {
        if value != 0 {
            words += &format!(", {part} {value}");
        }
    }
    words
}

#[cfg(test)]
mod tests {
    use super::*;

    /// Number + 256 × place + 2^32 × character.
    #[test]
    fn an_answer_has_number_place_and_character() {
        let fault = |place, character| Fault {
            refusal: Refusal::Digit,
            place,
            character,
        };
        assert_eq!(Fault::from(Refusal::Digit).answer(), 13);
        assert_eq!(fault(2, 0).answer(), 525);
        assert_eq!(fault(0, 11).answer(), 47_244_640_269);
        assert_eq!(fault(4096, 11).answer(), 47_245_688_845);
    }

    #[test]
    fn an_answer_is_told_in_words() {
        let cases = [
            (0, "accepted"),
            (4, "refused 4"),
            (7 + 256 * 4096, "refused 7, place 4096"),
            (8 + (2 << 32), "refused 8, character 2"),
            (
                13 + 256 * 2 + (11 << 32),
                "refused 13, place 2, character 11",
            ),
            (8 + (256 << 32), "refused 8, character 256"),
            (1 << 32, "refused 0, character 1"),
        ];
        for (answer, words) in cases {
            assert_eq!(answer_words(answer), words);
        }
    }
}
