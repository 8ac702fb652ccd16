//! Abstract stacks as document 01's numbers: blank + 256 x len + 4,096 x base + 16,384 x intact.

/// A state, by its number.
#[derive(Clone, Copy, Debug, PartialEq, Eq, Hash, PartialOrd, Ord)]
pub struct State(pub u16);

/// Base 0: no entry.
pub const EMPTY: u16 = 0;
/// Base 1: only entries of length 0.
pub const BLANK: u16 = 1;
/// Base 2: anything.
pub const ANY: u16 = 2;

/// Most entries tracked above the base.
const MOST: u16 = 8;

/// Nothing is known.
pub const UNKNOWN: State = State(4096 * ANY);

/// What every rule is walked from.
pub const ENTRY: State = State(4096 * ANY + 16_384);

/// The blank mask of a length: 2^n - 1.
fn mask(len: u16) -> u16 {
    (1 << len) - 1
}

impl State {
    /// The state with these four.
    pub fn new(base: u16, len: u16, blank: u16, intact: bool) -> State {
        State(blank + 256 * len + 4096 * base + 16_384 * u16::from(intact))
    }

    pub fn blank(self) -> u16 {
        self.0 % 256
    }

    pub fn length(self) -> u16 {
        self.0 / 256 % 16
    }

    pub fn base(self) -> u16 {
        self.0 / 4096 % 4
    }

    pub fn intact(self) -> bool {
        self.0 / 16_384 == 1
    }

    /// Base not Any and blank equals the mask.
    pub fn all_blank(self) -> bool {
        self.base() != ANY && self.blank() == mask(self.length())
    }

    /// No stack but the empty one.
    pub fn surely_empty(self) -> bool {
        self.base() == EMPTY && self.length() == 0
    }

    /// The top entry has length 0.
    pub fn top_blank(self) -> bool {
        self.length() > 0 && self.blank() > mask(self.length() - 1)
    }

    /// Equal states stay. Equal length: blank bits in both, intact in both. Lengths differ:
    /// Blank, 0, 0, not intact where both are all-blank; else UNKNOWN.
    pub fn join(self, other: State) -> State {
        if self == other {
            self
        } else if self.length() == other.length() {
            let base = join_bases(self.base(), other.base());
            let blank = self.blank() & other.blank();
            State::new(base, self.length(), blank, self.intact() && other.intact())
        } else if self.all_blank() && other.all_blank() {
            State::new(BLANK, 0, 0, false)
        } else {
            UNKNOWN
        }
    }

    /// One entry more, surely of length 0 or not; at length 8 UNKNOWN.
    pub fn push(self, blank: bool) -> State {
        if self.length() == MOST {
            return UNKNOWN;
        }
        let bit = u16::from(blank) << self.length();
        State::new(
            self.base(),
            self.length() + 1,
            self.blank() + bit,
            self.intact(),
        )
    }

    /// Drops the top bit; at length 0 Empty stays, Blank gives Blank not intact, Any UNKNOWN.
    pub fn pop_one(self) -> State {
        if self.length() > 0 {
            let len = self.length() - 1;
            return State::new(self.base(), len, self.blank() & mask(len), self.intact());
        }
        match self.base() {
            EMPTY => self,
            BLANK => State::new(BLANK, 0, 0, false),
            _ => UNKNOWN,
        }
    }

    /// Empty, intact only if it was intact and Empty.
    pub fn pop_all(self) -> State {
        State::new(EMPTY, 0, 0, self.intact() && self.base() == EMPTY)
    }

    /// The same, its base the list of this moment.
    pub fn fresh(self) -> State {
        State::new(self.base(), self.length(), self.blank(), true)
    }

    /// The same entries above the base.
    pub fn same_top(self, other: State) -> bool {
        (self.length(), self.blank()) == (other.length(), other.blank())
    }
}

/// Equal stays, Any wins, else Blank.
fn join_bases(a: u16, b: u16) -> u16 {
    if a == b {
        a
    } else if a == ANY || b == ANY {
        ANY
    } else {
        BLANK
    }
}

/// The join of two states, each of which may be impossible.
pub fn join(a: Option<State>, b: Option<State>) -> Option<State> {
    match (a, b) {
        (Some(a), Some(b)) => Some(a.join(b)),
        _ => a.or(b),
    }
}
