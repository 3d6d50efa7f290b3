//! How large inputs are to be, and what they are to be full of.

use crate::refusal::{Refusal, CALLS_FULL, CELLS_FULL, PLACES_FULL, TYPES_FULL};
use crate::requests::Got;
use crate::state::{State, MAX_CALLS, MAX_CELLS, MAX_PLACES};
use crate::table::{MAX_ARGUMENTS, MAX_SUBJECTS, MAX_TYPES};

/// What kind of input to generate.
#[derive(Clone, Copy, PartialEq, Eq, Debug, Hash)]
pub enum Profile {
    Small,
    Medium,
    Big,
    /// Runs until the table, the places, the cells, the calls of one subject or those of sixteen
    /// are full.
    Full,
    /// Calls with three and four arguments, and with what they meet where things are full.
    Long,
    /// A small or medium input with a few of its bytes, lines or numbers bad.
    Damaged,
}

pub const PROFILES: [Profile; 6] = [
    Profile::Small,
    Profile::Medium,
    Profile::Big,
    Profile::Full,
    Profile::Long,
    Profile::Damaged,
];

impl Profile {
    pub fn of_name(name: &str) -> Option<Profile> {
        PROFILES.into_iter().find(|one| one.name() == name)
    }

    pub fn name(self) -> &'static str {
        match self {
            Profile::Small => "small",
            Profile::Medium => "medium",
            Profile::Big => "big",
            Profile::Full => "full",
            Profile::Long => "long",
            Profile::Damaged => "damaged",
        }
    }
}

/// Weights of no argument, one, and so on.
pub type Arguments = [usize; MAX_ARGUMENTS + 1];

const ANY: Arguments = [30, 32, 14, 10, 14];
const MANY: Arguments = [6, 6, 6, 22, 60];

/// The sizes of an input and what its requests mostly are.
#[derive(Clone, Debug)]
pub struct Plan {
    pub subjects: (usize, usize),
    pub methods: (usize, usize),
    pub categories: (usize, usize),
    pub types: (usize, usize),
    pub families: (usize, usize),
    /// How often a method has no argument, one, and so on.
    pub arguments: Arguments,
    pub requests: (usize, usize),
    /// New, move, call, answer, and requests with any operands.
    pub weights: [usize; 5],
    /// How many refusals in a hundred stay in the list.
    pub refusals: usize,
    /// How many targets of moves in a hundred have own.
    pub own: usize,
    /// What is to be full, if anything.
    pub goal: Option<Goal>,
}

/// What a list of requests is to fill.
#[derive(Clone, Copy, PartialEq, Eq, Debug)]
pub enum Goal {
    Types,
    Places,
    Cells,
    /// The calls of one subject.
    Calls,
    /// The calls of sixteen subjects.
    AllCalls,
}

impl Goal {
    /// The refusal that tells that it is full.
    pub fn refusal(self) -> Refusal {
        match self {
            Goal::Types => TYPES_FULL,
            Goal::Places => PLACES_FULL,
            Goal::Cells => CELLS_FULL,
            Goal::Calls | Goal::AllCalls => CALLS_FULL,
        }
    }

    /// Whether a call with many references may be the one that meets it full.
    pub fn is_near(self, state: &State) -> bool {
        match self {
            Goal::Types => state.table.types.len() + 12 > MAX_TYPES,
            Goal::Places => state.places.len() + 10 > MAX_PLACES,
            Goal::Cells => state.cells.len() + 8 > MAX_CELLS,
            Goal::Calls | Goal::AllCalls => false,
        }
    }

    /// Whether a request with this result, which left this state, met it full.
    pub fn is_met(self, result: Result<Got, Refusal>, state: &State) -> bool {
        let all = self != Goal::AllCalls || state.calls.len() == MAX_CALLS;
        all && result == Err(self.refusal())
    }
}

pub const SMALL: Plan = Plan {
    subjects: (1, 3),
    methods: (1, 3),
    categories: (0, 2),
    types: (2, 8),
    families: (1, 2),
    arguments: ANY,
    requests: (3, 16),
    weights: [20, 40, 20, 15, 5],
    refusals: 35,
    own: 20,
    goal: None,
};

/// For tables of tiny sheets: of one type there is more to call than to move.
pub const TINY: Plan = Plan {
    requests: (8, 24),
    weights: [15, 15, 30, 25, 15],
    ..SMALL
};

pub const MEDIUM: Plan = Plan {
    subjects: (2, 4),
    methods: (2, 4),
    categories: (0, 5),
    types: (6, 16),
    families: (1, 3),
    arguments: ANY,
    requests: (15, 50),
    weights: [15, 45, 20, 15, 5],
    refusals: 25,
    own: 20,
    goal: None,
};

pub const BIG: Plan = Plan {
    subjects: (2, 16),
    methods: (2, 16),
    categories: (0, 31),
    types: (16, 48),
    families: (1, 4),
    arguments: ANY,
    requests: (50, 150),
    weights: [12, 45, 22, 16, 5],
    refusals: 15,
    own: 10,
    goal: None,
};

/// One plan each for the table, the places, the cells and the calls of one subject, one for all of
/// them together, and one for the calls of sixteen subjects.
pub const FULL: [Plan; 6] = [
    Plan {
        subjects: (2, 4),
        methods: (2, 5),
        categories: (0, 3),
        types: (8, 40),
        families: (1, 2),
        arguments: ANY,
        requests: (250, 450),
        weights: [15, 60, 13, 10, 2],
        refusals: 30,
        own: 8,
        goal: Some(Goal::Types),
    },
    Plan {
        subjects: (2, 3),
        methods: (1, 3),
        categories: (0, 2),
        types: (3, 12),
        families: (1, 1),
        arguments: ANY,
        requests: (250, 400),
        weights: [35, 25, 23, 15, 2],
        refusals: 10,
        own: 10,
        goal: Some(Goal::Places),
    },
    Plan {
        subjects: (2, 3),
        methods: (1, 3),
        categories: (0, 2),
        types: (3, 12),
        families: (1, 2),
        arguments: ANY,
        requests: (330, 450),
        weights: [5, 65, 16, 12, 2],
        refusals: 5,
        own: 15,
        goal: Some(Goal::Cells),
    },
    Plan {
        subjects: (2, 3),
        methods: (1, 3),
        categories: (0, 1),
        types: (3, 8),
        families: (1, 2),
        arguments: ANY,
        requests: (330, 450),
        weights: [3, 5, 80, 10, 2],
        refusals: 5,
        own: 10,
        goal: Some(Goal::Calls),
    },
    Plan {
        subjects: (2, 4),
        methods: (2, 4),
        categories: (0, 2),
        types: (6, 20),
        families: (1, 2),
        arguments: ANY,
        requests: (350, 550),
        weights: [15, 40, 27, 16, 2],
        refusals: 5,
        own: 10,
        goal: None,
    },
    Plan {
        subjects: (MAX_SUBJECTS, MAX_SUBJECTS),
        methods: (2, 4),
        categories: (0, 1),
        types: (2, 8),
        families: (1, 1),
        arguments: [40, 10, 5, 10, 35],
        requests: (600, 700),
        weights: [1, 3, 90, 4, 2],
        refusals: 5,
        own: 10,
        goal: Some(Goal::AllCalls),
    },
];

/// Plans whose methods have many arguments: for no goal, and for each thing that an argument can
/// find full.
pub const LONG: [Plan; 4] = [
    Plan {
        subjects: (1, 2),
        ..long((20, 70), [14, 34, 44, 6, 2], None)
    },
    long((150, 300), [14, 34, 34, 6, 2], Some(Goal::Types)),
    long((150, 300), [40, 20, 24, 4, 2], Some(Goal::Places)),
    long((150, 300), [14, 34, 34, 6, 2], Some(Goal::Cells)),
];

const fn long(requests: (usize, usize), weights: [usize; 5], goal: Option<Goal>) -> Plan {
    Plan {
        subjects: (1, 4),
        methods: (1, 3),
        categories: (0, 2),
        types: (4, 16),
        families: (1, 1),
        arguments: MANY,
        requests,
        weights,
        refusals: 40,
        own: 6,
        goal,
    }
}
