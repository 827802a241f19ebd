//! The account: its names, its totals and its table.
use yokefathom::{Account, Outcomes};

const NUMBERS: [[u64; 3]; 4] = [[1, 20, 300], [4_000, 50_000, 600_000], [7, 8, 9], [10, 0, 0]];

#[test]
fn names_stand_for_the_numbers() {
    let account = Account::from(NUMBERS);
    assert_eq!(account.slots, Outcomes { edges: 1, weak: 20, missing: 300 });
    assert_eq!(account.elements, Outcomes { edges: 4_000, weak: 50_000, missing: 600_000 });
    assert_eq!(account.statics, Outcomes { edges: 7, weak: 8, missing: 9 });
    assert_eq!(account.loaders, Outcomes { edges: 10, weak: 0, missing: 0 });
    assert_eq!(<[[u64; 3]; 4]>::from(account), NUMBERS);
    assert_eq!(account.kinds().map(|(kind, _)| kind), ["slot", "element", "static", "loader"]);
    assert_eq!(account.kinds().map(|(_, row)| <[u64; 3]>::from(row)), NUMBERS);
}

#[test]
fn totals_add_up() {
    let account = Account::from(NUMBERS);
    assert_eq!((account.edges(), account.weak(), account.missing()), (4_018, 50_028, 600_309));
    assert_eq!(account.totals(), Outcomes { edges: 4_018, weak: 50_028, missing: 600_309 });
    assert_eq!(account.kinds().map(|(_, row)| row.total()), [321, 654_000, 24, 10]);
    assert_eq!(account.total(), 654_355);
    assert_eq!(Account::default().total(), 0);
}

#[test]
fn the_table_is_aligned() {
    let small = "            edge     weak  missing    total
slot           1        1        0        2
element        1        0        1        2
static         1        0        0        1
loader         1        0        0        1
total          4        1        1        6";
    assert_eq!(Account::from([[1, 1, 0], [1, 0, 1], [1, 0, 0], [1, 0, 0]]).to_string(), small);
    let large = Account::from([[268_435_456, 0, 0], [0; 3], [0; 3], [0; 3]]).to_string();
    assert!(
        large.starts_with("              edge       weak    missing      total\nslot     268435456          0          0  268435456\n"),
        "{large}"
    );
    for table in [large, Account::from([[u64::MAX; 3]; 4]).to_string()] {
        let lines: Vec<&str> = table.lines().collect();
        assert_eq!(lines.len(), 6);
        assert!(lines.iter().all(|line| line.len() == lines[0].len()), "{table}");
    }
}
