//! The account: what became of every reference of an input.
use std::fmt;

/// What became of the references of one kind, or of all.
#[derive(Clone, Copy, Debug, Default, PartialEq, Eq, Hash)]
pub struct Outcomes {
    /// References that are edges.
    pub edges: u64,
    /// References that the policy does not keep: the weak pairs.
    pub weak: u64,
    /// References to ids that no object has.
    pub missing: u64,
}

impl Outcomes {
    /// All three together.
    pub fn total(self) -> u64 {
        [self.weak, self.missing].into_iter().fold(self.edges, u64::saturating_add)
    }

    /// Each outcome of both together.
    fn plus(self, other: Outcomes) -> Outcomes {
        Outcomes {
            edges: self.edges.saturating_add(other.edges),
            weak: self.weak.saturating_add(other.weak),
            missing: self.missing.saturating_add(other.missing),
        }
    }
}

impl From<[u64; 3]> for Outcomes {
    fn from([edges, weak, missing]: [u64; 3]) -> Outcomes {
        Outcomes { edges, weak, missing }
    }
}

impl From<Outcomes> for [u64; 3] {
    fn from(Outcomes { edges, weak, missing }: Outcomes) -> [u64; 3] {
        [edges, weak, missing]
    }
}

/// The account of a build: every reference that is not null, by its kind and by what became of it. Printed, it is a table.
///
/// ```
/// # use yokefathom::Account;
/// let account = Account::from([[1, 1, 0], [1, 0, 1], [1, 0, 0], [1, 0, 0]]);
/// assert_eq!((account.slots.weak, account.elements.missing), (1, 1));
/// assert_eq!((account.edges(), account.weak(), account.missing(), account.total()), (4, 1, 1, 6));
/// ```
#[derive(Clone, Copy, Debug, Default, PartialEq, Eq, Hash)]
pub struct Account {
    /// Fields of instances.
    pub slots: Outcomes,
    /// Elements of arrays.
    pub elements: Outcomes,
    /// Static fields of classes.
    pub statics: Outcomes,
    /// Loaders of classes; those that no object is are not counted.
    pub loaders: Outcomes,
}

impl Account {
    /// The kinds by document 01's names, in its order.
    pub fn kinds(&self) -> [(&'static str, Outcomes); 4] {
        [("slot", self.slots), ("element", self.elements), ("static", self.statics), ("loader", self.loaders)]
    }

    /// The outcomes of all kinds together.
    pub fn totals(&self) -> Outcomes {
        self.kinds().into_iter().fold(Outcomes::default(), |sum, (_, outcomes)| sum.plus(outcomes))
    }

    /// How many references are edges: the graph's edge count.
    pub fn edges(&self) -> u64 {
        self.totals().edges
    }

    /// How many references the policy does not keep: the graph's weak pairs.
    pub fn weak(&self) -> u64 {
        self.totals().weak
    }

    /// How many references are to ids that no object has: the graph's dangling count.
    pub fn missing(&self) -> u64 {
        self.totals().missing
    }

    /// How many references there are.
    pub fn total(&self) -> u64 {
        self.totals().total()
    }
}

impl From<[[u64; 3]; 4]> for Account {
    fn from(table: [[u64; 3]; 4]) -> Account {
        let [slots, elements, statics, loaders] = table.map(Outcomes::from);
        Account { slots, elements, statics, loaders }
    }
}

impl From<Account> for [[u64; 3]; 4] {
    fn from(account: Account) -> [[u64; 3]; 4] {
        account.kinds().map(|(_, outcomes)| outcomes.into())
    }
}

/// A line for each kind and one for all, a column for each outcome and one for all.
impl fmt::Display for Account {
    fn fmt(&self, f: &mut fmt::Formatter<'_>) -> fmt::Result {
        let width = self.total().to_string().len().max("missing".len());
        write!(f, "{:7}  {:>width$}  {:>width$}  {:>width$}  {:>width$}", "", "edge", "weak", "missing", "total")?;
        for (kind, outcomes) in self.kinds().into_iter().chain([("total", self.totals())]) {
            let Outcomes { edges, weak, missing } = outcomes;
            write!(f, "\n{kind:7}  {edges:>width$}  {weak:>width$}  {missing:>width$}  {:>width$}", outcomes.total())?;
        }
        Ok(())
    }
}
