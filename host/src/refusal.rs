//! Why a call refuses: document 01's twelve numbers.
use std::fmt;

/// A refusal with its place; later requests bring more of them. [`number`](Refusal::number) and [`name`](Refusal::name) are document 01's; printed, it says so in words.
#[derive(Clone, Copy, Debug, PartialEq, Eq, Hash)]
#[non_exhaustive]
pub enum Refusal {
    /// Columns of one table differ in length.
    Lengths,
    /// Objects, classes, names, slots or statics over the limit, or an id size that is not 4 or 8.
    Limit,
    /// An object whose id, kind, class or length is wrong.
    Object(u64),
    /// A class whose flag, kind, ranges, slots or statics are wrong, or that is found badly.
    Class(u64),
    /// A wrong escape or code among the copied ids.
    Copied(u64),
    /// An object whose part ends past its column or bytes.
    Span(u64),
    /// A root that is no object.
    Root(u64),
    /// More places than the limit.
    Places,
    /// A buffer that is smaller than its need. A build never gives it, nor does [`Graph::incoming`](crate::Graph::incoming):
    /// [`Graph`](crate::Graph) lends them enough. Where the caller lends, [`Graph::fields_into`](crate::Graph::fields_into) gives 12,
    /// [`SlotColumns::fill`](crate::SlotColumns::fill) gives 17 and [`Graph::object_edges`](crate::Graph::object_edges) gives 23.
    Room(u64),
    /// Columns handed to `from_parts` that break their rules.
    Parts {
        /// 1 offsets, 2 labels, 3 targets, 4 weak pairs, 5 roots.
        column: u64,
        /// The first wrong place in that column.
        position: u64,
    },
    /// A question about an object, or an edge of an object or to it, that does not exist. Of a list, the position in it.
    Index(u64),
    /// An entry that cannot be read back. Never on the columns that a build left.
    Columns(u64),
}

impl Refusal {
    /// From the numbers that a call said, if the first is not 0.
    pub(crate) fn from_numbers(says: &[u64]) -> Option<Refusal> {
        let place = says.get(1).copied().unwrap_or(0);
        Some(match says.first()? {
            1 => Refusal::Lengths,
            2 => Refusal::Limit,
            3 => Refusal::Object(place),
            4 => Refusal::Class(place),
            5 => Refusal::Copied(place),
            6 => Refusal::Span(place),
            7 => Refusal::Root(place),
            8 => Refusal::Places,
            9 => Refusal::Room(place),
            10 => Refusal::Parts { column: place, position: says.get(2).copied().unwrap_or(0) },
            11 => Refusal::Index(place),
            12 => Refusal::Columns(place),
            _ => return None,
        })
    }

    /// The number and the name in document 01's table, and the place.
    fn row(self) -> (u8, &'static str, u64) {
        match self {
            Refusal::Lengths => (1, "LENGTHS", 0),
            Refusal::Limit => (2, "LIMIT", 0),
            Refusal::Object(at) => (3, "OBJECT", at),
            Refusal::Class(at) => (4, "CLASS", at),
            Refusal::Copied(at) => (5, "COPIED", at),
            Refusal::Span(at) => (6, "SPAN", at),
            Refusal::Root(at) => (7, "ROOT", at),
            Refusal::Places => (8, "PLACES", 0),
            Refusal::Room(at) => (9, "ROOM", at),
            Refusal::Parts { position, .. } => (10, "PARTS", position),
            Refusal::Index(at) => (11, "INDEX", at),
            Refusal::Columns(at) => (12, "COLUMNS", at),
        }
    }

    /// The number in document 01's table.
    pub fn number(self) -> u8 {
        self.row().0
    }

    /// The name in document 01's table.
    pub fn name(self) -> &'static str {
        self.row().1
    }

    /// The place that is returned with the number; of PARTS, the position.
    pub fn place(self) -> u64 {
        self.row().2
    }
}

impl fmt::Display for Refusal {
    fn fmt(&self, f: &mut fmt::Formatter<'_>) -> fmt::Result {
        write!(f, "{} (refusal {}): ", self.name(), self.number())?;
        match self {
            Refusal::Lengths => write!(f, "columns of one table differ in length"),
            Refusal::Limit => write!(f, "more objects, classes, names, slots or statics than the limit, or an id size other than 4 and 8"),
            Refusal::Object(at) => write!(f, "object {at} has a wrong id, kind, class or length"),
            Refusal::Class(at) => write!(f, "class {at} has a wrong flag, kind, range, slot or static, or is found badly"),
            Refusal::Copied(at) => write!(f, "the copied ids are wrong at position {at}"),
            Refusal::Span(at) => write!(f, "the part of object {at} ends past its column, or is no array's"),
            Refusal::Root(at) => write!(f, "root {at} is no object"),
            Refusal::Places => write!(f, "more places for edges than the limit"),
            Refusal::Room(at) => write!(f, "buffer {at} is smaller than its need"),
            Refusal::Parts { column, position } => {
                const COLUMNS: [&str; 6] = ["no column", "offsets", "labels", "targets", "weak pairs", "roots"];
                let column = COLUMNS.get(*column as usize).unwrap_or(&COLUMNS[0]);
                write!(f, "the {column} handed over are wrong at position {position}")
            }
            Refusal::Index(at) => write!(f, "there is no object or edge {at}"),
            Refusal::Columns(at) => write!(f, "the columns of object {at} cannot be read back"),
        }
    }
}

impl std::error::Error for Refusal {}
