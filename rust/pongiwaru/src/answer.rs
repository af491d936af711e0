//! The answers.

/// An answer, in a row each: `Name = number, "words";`.
macro_rules! answers {
    ($($name:ident = $number:literal, $words:literal;)*) => {
        /// An answer's number. 0 to 4 may have a payload and change the state; the others have none and leave all as it was.
        /// `Ran` is not yet a success: SV answers so also where constraints failed, XP also where a type could not be
        /// inferred, and the payload then lists them; MJ whatever its pairs are answered. `is_well` tells the two apart.
        #[derive(Debug, Clone, Copy, PartialEq, Eq, Hash, PartialOrd, Ord)]
        #[repr(u32)]
        #[non_exhaustive]
        pub enum Answer {
            $(#[doc = $words] $name = $number,)*
        }

        impl Answer {
            pub const ALL: &'static [Answer] = &[$(Answer::$name),*];

            pub fn of(number: u32) -> Option<Answer> {
                Answer::ALL.iter().copied().find(|a| a.number() == number)
            }
            pub fn words(self) -> &'static str {
                match self { $(Answer::$name => $words,)* }
            }
        }
    };
}

answers! {
    Ran = 0, "typed";
    SubtypeError = 1, "subtype error";
    Incompatible = 2, "incompatible";
    ArityMismatch = 3, "arity mismatch";
    RecursiveType = 4, "recursive type";
    Malformed = 5, "malformed";
    UnknownName = 6, "unknown name";
    Full = 7, "full";
    TooDeep = 8, "too deep";
    RunsIntoItself = 9, "runs into itself";
    AbilitiesDisagree = 10, "abilities disagree";
    OpenVariable = 11, "open variable";
    NoArgument = 12, "no argument";
    ParameterTwice = 13, "parameter twice";
    AnswerTooLong = 14, "answer too long";
    UnsoundState = 15, "unsound state";
    AbilityMarkContradicted = 16, "ability mark contradicted";
    AlreadyExpanded = 17, "already expanded";
    DoubledReference = 18, "doubled reference";
}

impl Answer {
    pub fn number(self) -> u32 {
        self as u32
    }
    /// Whether this answer to `record`, with this payload, says that nothing is wrong: `Ran`, of SV without a payload, of
    /// XP without codes, of MJ with pairs of 0 alone. `joblog::payload` reads what the payload says.
    pub fn is_well(self, record: &[u8], payload: &[u8]) -> bool {
        let listed = match record.get(..2) {
            Some(b"SV") => !payload.is_empty(),
            Some(b"XP") => has_code(payload),
            Some(b"MJ") => has_failed_pair(payload),
            _ => false,
        };
        self == Answer::Ran && !listed
    }
    /// whether it is one of the trade's errors, 1 to 4
    pub fn is_error(self) -> bool {
        (1..=4).contains(&self.number())
    }
    /// whether the record was refused, so that all is as it was
    pub fn is_refusal(self) -> bool {
        self.number() >= 5
    }
}

impl std::fmt::Display for Answer {
    fn fmt(&self, f: &mut std::fmt::Formatter) -> std::fmt::Result {
        f.write_str(self.words())
    }
}

/// Whether a payload of MJ has a pair that is not 0. A pair is its number, its payload's length in two bytes, and that payload.
fn has_failed_pair(payload: &[u8]) -> bool {
    let mut rest = payload;
    while let [number, low, high, behind @ ..] = rest {
        if *number != 0 {
            return true;
        }
        rest = behind.get(u16::from_le_bytes([*low, *high]) as usize..).unwrap_or(&[])
    }
    false
}

/// Whether a payload of XP has a code, byte 5 and a location behind the type. In XP's type each struct's tag and location
/// are followed by an ability mark, 16 or more, and a code's by the next code or nothing.
fn has_code(payload: &[u8]) -> bool {
    const FIELDS: [usize; 9] = [0, 1, 5, 2, 2, 3, 2, 0, 0];
    let mut rest = payload;
    while let [tag, _, _, _, _, behind @ ..] = rest {
        if *tag == 5 && behind.first().is_none_or(|mark| *mark < 16) {
            return true;
        }
        rest = behind.get(FIELDS.get(*tag as usize).copied().unwrap_or(0)..).unwrap_or(&[])
    }
    false
}
