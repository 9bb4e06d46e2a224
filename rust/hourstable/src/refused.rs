use std::error::Error;
use std::fmt;

use crate::sys::{self, hs_told};
use crate::Kind;

/// What a call returns that is not done. A code never changes its meaning; a later library may return others.
#[derive(Clone, Copy, Debug, PartialEq, Eq, Hash)]
pub struct Code(pub i32);

macro_rules! codes {
    ($($name:ident = $number:ident,)*) => {
        impl Code {
            $(pub const $name: Code = Code(sys::$number);)*

            /// The name in the header without `HS_`, such as `TOO_LATE`; `None` if this version has no such code.
            pub fn name(self) -> Option<&'static str> {
                match self {
                    $(Code::$name => Some(stringify!($name)),)*
                    _ => None,
                }
            }
        }
    };
}

codes! {
    DOWN = HS_DOWN,
    CLOCK_BACK = HS_CLOCK_BACK,
    ENDED = HS_ENDED,
    NOT_OWNED = HS_NOT_OWNED,
    NO_LEASE = HS_NO_LEASE,
    NOT_STARTED = HS_NOT_STARTED,
    OLD_LIFE = HS_OLD_LIFE,
    OTHER_TASK = HS_OTHER_TASK,
    OTHER_LIFE = HS_OTHER_LIFE,
    OLD = HS_OLD,
    TOO_LATE = HS_TOO_LATE,
    NOTHING_HELD = HS_NOTHING_HELD,
    HISTORY_FULL = HS_HISTORY_FULL,
    BROKEN = HS_BROKEN,
    STRANGER = HS_STRANGER,
    READING_RANGE = HS_READING_RANGE,
    JOB_HELD = HS_JOB_HELD,
    NOT_HOLDER = HS_NOT_HOLDER,
    STALE_BASE = HS_STALE_BASE,
    PENDING = HS_PENDING,
    NOTHING_PENDING = HS_NOTHING_PENDING,
    TOO_MANY_OWNERS_FOR_JOB = HS_TOO_MANY_OWNERS_FOR_JOB,
    GRACE = HS_GRACE,
    HELD = HS_HELD,
    NO_ROW = HS_NO_ROW,
    NO_ASSIGNMENT = HS_NO_ASSIGNMENT,
    NUMBERS_SPENT = HS_NUMBERS_SPENT,
    OLD_GENERATION = HS_OLD_GENERATION,
    UNKNOWN = HS_UNKNOWN,
    NOT_ADOPTED = HS_NOT_ADOPTED,
    NO_TASKS = HS_NO_TASKS,
    LOADS_LENGTH = HS_LOADS_LENGTH,
    LOAD_RANGE = HS_LOAD_RANGE,
    SENT_AHEAD = HS_SENT_AHEAD,
    NO_SAMPLE = HS_NO_SAMPLE,
    TOO_OLD = HS_TOO_OLD,
    TOO_LARGE = HS_TOO_LARGE,
    NOT_YET = HS_NOT_YET,
    OTHER_POLICY = HS_OTHER_POLICY,
    NO_TERM = HS_NO_TERM,
    TERM_RANGE = HS_TERM_RANGE,
    KEPT_GENERATION = HS_KEPT_GENERATION,
    TOO_MANY_GRANTS = HS_TOO_MANY_GRANTS,
    DEADLINE_RANGE = HS_DEADLINE_RANGE,
    WEIGHT_RANGE = HS_WEIGHT_RANGE,
    TOTAL_RANGE = HS_TOTAL_RANGE,
    MANY_OWNERS = HS_MANY_OWNERS,
    FENCED = HS_FENCED,
    NO_MEMORY = HS_NO_MEMORY,
    NO_ROOM = HS_NO_ROOM,
    NOT_JSON = HS_NOT_JSON,
    VERSION = HS_VERSION,
    OTHER_TYPE = HS_OTHER_TYPE,
    WRONG_FORM = HS_WRONG_FORM,
    PAST_END = HS_PAST_END,
    UNSORTED = HS_UNSORTED,
    EMPTY = HS_EMPTY,
    NO_SLICES = HS_NO_SLICES,
    FIRST_NOT_ZERO = HS_FIRST_NOT_ZERO,
    NOT_RISING = HS_NOT_RISING,
    NO_OWNER = HS_NO_OWNER,
    TOO_MANY_OWNERS = HS_TOO_MANY_OWNERS,
    OWNER_TWICE = HS_OWNER_TWICE,
    BAD_TASK = HS_BAD_TASK,
    TOO_MANY_SLICES = HS_TOO_MANY_SLICES,
    OTHER_PLACE = HS_OTHER_PLACE,
    OTHER_JOB = HS_OTHER_JOB,
}

/// The error of every call that is not done: its code, and the numbers that the code comes with. Its text is that of
/// scripts, such as `held 1 guard 2`.
#[derive(Clone, Copy, Debug, PartialEq, Eq)]
pub struct Refused {
    code: Code,
    told: hs_told,
}

impl Refused {
    pub(crate) fn new(code: i32, told: hs_told) -> Refused {
        Refused { code: Code(code), told }
    }

    pub fn code(&self) -> Code {
        self.code
    }

    /// The number of a grant or of a term, or the version of a message; 0 if the code sets none.
    pub fn number(&self) -> u64 {
        self.told.number
    }

    /// The generation of a lease or an assignment; 0 if the code sets none.
    pub fn generation(&self) -> u64 {
        self.told.generation
    }

    /// The kind of a lease.
    pub fn kind(&self) -> Option<Kind> {
        Kind::from_number(self.told.kind)
    }

    /// 1 to 64; 0 if the code sets none.
    pub fn task(&self) -> u64 {
        self.told.task
    }

    /// A reading; 0 if the code sets none.
    pub fn until(&self) -> u64 {
        self.told.until
    }

    /// Where a key is denied, the greatest generation of the held leases that cover it, live or ended; 0 if none does.
    pub fn covering(&self) -> u64 {
        self.told.covering
    }
}

impl fmt::Display for Refused {
    fn fmt(&self, out: &mut fmt::Formatter<'_>) -> fmt::Result {
        match (self.code, self.code.name()) {
            (Code::OLD_GENERATION, _) => write!(out, "old")?,
            (_, Some(name)) => write!(out, "{}", name.to_lowercase().replace('_', "-"))?,
            (Code(number), None) => write!(out, "code {number}")?,
        }
        match self.code {
            Code::NOT_OWNED | Code::STALE_BASE | Code::OLD_GENERATION => {
                write!(out, " {}", self.told.generation)
            }
            Code::OLD | Code::NOT_HOLDER | Code::VERSION => write!(out, " {}", self.told.number),
            Code::JOB_HELD | Code::GRACE | Code::NOT_YET => write!(out, " {}", self.told.until),
            Code::HELD => {
                let kind = self.kind().map_or("?", Kind::word);
                write!(out, " {} {kind} {}", self.told.task, self.told.number)
            }
            _ => Ok(()),
        }
    }
}

impl Error for Refused {}

/// `Ok` of `HS_DONE`, of a call with no `told`.
pub(crate) fn done(code: i32) -> Result<(), Refused> {
    told(|_| code).map(drop)
}

/// Makes a call with a `told` that is zeroed, and returns what it sets.
pub(crate) fn told(call: impl FnOnce(*mut hs_told) -> i32) -> Result<hs_told, Refused> {
    let mut told = hs_told::default();
    match call(&mut told) {
        sys::HS_DONE => Ok(told),
        code => Err(Refused::new(code, told)),
    }
}

#[cfg(test)]
mod tests {
    use super::*;

    fn text_of(code: Code, told: hs_told) -> String {
        Refused::new(code.0, told).to_string()
    }

    #[test]
    fn texts_are_those_of_scripts() {
        let told = hs_told { number: 9, generation: 4, kind: 2, task: 3, until: 1001, covering: 5 };
        assert_eq!(text_of(Code::NOT_OWNED, told), "not-owned 4");
        assert_eq!(text_of(Code::OLD, told), "old 9");
        assert_eq!(text_of(Code::OLD_GENERATION, told), "old 4");
        assert_eq!(text_of(Code::JOB_HELD, told), "job-held 1001");
        assert_eq!(text_of(Code::HELD, told), "held 3 bridge 9");
        assert_eq!(text_of(Code::TOO_MANY_OWNERS_FOR_JOB, told), "too-many-owners-for-job");
        assert_eq!(text_of(Code(1000), told), "code 1000");
    }

    /// The names of codes are those of the header, if this is the repository, which has it.
    #[test]
    fn each_code_of_the_header_has_a_name() {
        let header = match std::fs::read_to_string("../../include/hourstable.h") {
            Ok(header) => header,
            Err(why) => return println!("skipped, no header beside the crate: {why}"),
        };
        let codes = header.split("enum hs_code {").nth(1).unwrap().split("\n};").next().unwrap();
        let mut found = 0;
        for declared in codes.split("HS_").filter(|it| it.contains(" = ")) {
            let (name, rest) = declared.split_once(" = ").unwrap();
            let digits = |it: &char| *it == '-' || it.is_ascii_digit();
            let number = rest.chars().take_while(digits).collect::<String>();
            if let (Ok(number), true) = (number.parse(), name != "DONE") {
                assert_eq!(Code(number).name(), Some(name));
                found += 1;
            }
        }
        assert!(found > 60, "{found} codes in the header");
    }
}
