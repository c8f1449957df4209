//! The answer of an entry: planes, or a refusal with its place of three kinds (document 01,
//! "Refusal numbers").

/// Where a refusal points.
#[derive(Clone, Copy, Debug, PartialEq, Eq)]
pub enum Place {
    /// The refusal is about no single slice or plane.
    Nothing,
    /// A slice, counted from 0 in wire order.
    Slice(u32),
    /// A plane, counted from 0 in wire order.
    Plane(u32),
}

/// What an entry answers.
#[derive(Clone, Copy, Debug, PartialEq, Eq)]
pub enum Answer {
    /// Every sample is defined. For a table or a reading by itself: it succeeded.
    Planes,
    /// The first row of document 01's table that applies.
    Refused {
        /// The row, 1 to 15.
        number: u32,
        /// Where.
        place: Place,
    },
}

impl Answer {
    /// 0 for planes, else the refusal's number.
    pub fn number(&self) -> u32 {
        match self {
            Answer::Planes => 0,
            Answer::Refused { number, .. } => *number,
        }
    }

    /// The place; nothing for planes.
    pub fn place(&self) -> Place {
        match self {
            Answer::Planes => Place::Nothing,
            Answer::Refused { place, .. } => *place,
        }
    }

    /// A refusal that points nowhere.
    pub fn refused(number: u32) -> Answer {
        Answer::Refused { number, place: Place::Nothing }
    }
}

impl Place {
    /// The boundary's kind: 0 nothing, 1 a slice, 2 a plane.
    pub fn kind(&self) -> u32 {
        match self {
            Place::Nothing => 0,
            Place::Slice(_) => 1,
            Place::Plane(_) => 2,
        }
    }

    /// The boundary's index; 0 where there is none.
    pub fn index(&self) -> u32 {
        match self {
            Place::Nothing => 0,
            Place::Slice(s) => *s,
            Place::Plane(p) => *p,
        }
    }
}

impl std::fmt::Display for Place {
    fn fmt(&self, f: &mut std::fmt::Formatter<'_>) -> std::fmt::Result {
        match self {
            Place::Nothing => f.write_str("nothing"),
            Place::Slice(s) => write!(f, "slice {s}"),
            Place::Plane(p) => write!(f, "plane {p}"),
        }
    }
}

impl std::fmt::Display for Answer {
    fn fmt(&self, f: &mut std::fmt::Formatter<'_>) -> std::fmt::Result {
        match self {
            Answer::Planes => f.write_str("accepted"),
            Answer::Refused { number, place } => write!(f, "refusal {number} ({place})"),
        }
    }
}
