//! The rules that are timed: a small one, a site's, and the worst that were found for each conversion.
use crate::rules::{atoms, balanced, colliding, heavy, heavy_negated, iff_chain, in_turn, lines, nested, pairs, plain_atoms, rebinding, side_by_side};
use wasileko::{convert, Conversion};

/// A row of the table: what it is, and the rules that are converted in turn.
pub struct Row {
    pub what: &'static str,
    pub rules: Vec<Vec<u8>>,
}

const SMALL: &str = "all zone / imp / pred Zone 1 / var zone / ex louvre / and / pred Supply 1 / var louvre / and / pred In 2 / var louvre / \
                     var zone / pred Open 1 / var louvre";

// What a site's rules look like; @ stands for a number.
const SITE: [&str; 8] = [
    SMALL,
    "all zone / iff / pred Smoke@ 1 / var zone / not / ex louvre / and / pred In 2 / var louvre / var zone / pred Open 1 / var louvre",
    "not / ex a b / and / pred Master@ 1 / var a / and / pred Master@ 1 / var b / not / eq / var a / var b",
    "all louvre / imp / and / pred Exhaust@ 1 / var louvre / pred Fire 1 / con zone@ / pred Open 1 / var louvre",
    "all zone louvre / imp / pred In 2 / var louvre / var zone / imp / not / pred Fault@ 1 / var louvre / iff / pred Open 1 / var louvre / \
     pred Calls 2 / var zone / var louvre",
    "all zone / imp / and / pred Occupied 1 / var zone / not / pred Night@ 0 / or / ex fan / and / pred Serves 2 / var fan / var zone / \
     pred Runs 1 / var fan / ex louvre / pred Open 1 / var louvre",
    "all sensor / imp / pred Reads 2 / var sensor / fun limit 1 / con zone@ / ex alarm / and / pred Raised 1 / var alarm / pred Of 2 / \
     var alarm / var sensor",
    "and / imp / pred Heat@ 0 / all zone / pred Vented 1 / var zone / imp / ex zone / pred Cold 1 / var zone / not / pred Heat@ 0",
];

// 40 rules, as a site has them.
fn site() -> Vec<Vec<u8>> {
    (1..=5).flat_map(|number| SITE.map(|rule| lines(&rule.replace('@', &number.to_string())))).collect()
}

// The rules in the form that a conversion starts from.
fn started(conversion: Conversion, rules: Vec<Vec<u8>>) -> Vec<Vec<u8>> {
    let first = match conversion {
        Conversion::PnfSnf => Conversion::Pnf,
        Conversion::SnfCnf | Conversion::SnfDnf => Conversion::Snf,
        _ => return rules,
    };
    rules.iter().map(|rule| convert(first, rule).expect("a rule that is timed has this form")).collect()
}

// Pairs that are multiplied out, and many atoms: one a clause each (`apart`), or all in one clause (`within`).
fn clause_sets(multiplied: &'static str, within: &str, apart: &str) -> Vec<(&'static str, String)> {
    vec![
        (multiplied, pairs(within, apart, 8)),
        ("256 atoms with short names", balanced(apart, &plain_atoms(256))),
        ("256 atoms with long names", balanced(apart, &atoms(256))),
        ("512 in a clause, short names", balanced(within, &plain_atoms(512))),
        ("512 in a clause, long names", balanced(within, &atoms(512))),
    ]
}

/// The rows of a conversion: the smallest rule, a small one, a site's file, and the worst rules that were found.
pub fn rows(conversion: Conversion) -> Vec<Row> {
    let worst: Vec<(&'static str, String)> = match conversion {
        Conversion::Simplify => vec![
            ("58 nested blocks over 348 names", nested("all", 58, 6)),
            ("15 nested blocks over 480 names", nested("all", 15, 32)),
            ("17 blocks of the same 32 names", rebinding("all", 17, 32)),
            ("29 blocks of the same 32 names", rebinding("all", 29, 32)),
            ("weight 1,024", heavy()),
        ],
        Conversion::Nnf => vec![("iff chain of 8 atoms", iff_chain(8)), ("weight 1,023", heavy_negated())],
        Conversion::Pnf => {
            vec![("320 blocks that collide", colliding("all")), ("204 blocks of 204 names", side_by_side("all")), ("weight 1,024", heavy())]
        }
        Conversion::Snf => vec![
            ("320 blocks that collide", colliding("ex")),
            ("204 blocks of 204 names", side_by_side("ex")),
            ("58 nested blocks over 348 names", nested("ex", 58, 6)),
            ("15 nested blocks over 480 names", nested("ex", 15, 32)),
        ],
        Conversion::PnfSnf => vec![
            ("62 blocks in turn", in_turn()),
            ("58 nested blocks over 348 names", nested("ex", 58, 6)),
            ("15 nested blocks over 480 names", nested("ex", 15, 32)),
        ],
        Conversion::Cnf | Conversion::SnfCnf => clause_sets("or over 8 pairs", "or", "and"),
        Conversion::Dnf | Conversion::SnfDnf => clause_sets("and over 8 pairs", "and", "or"),
    };
    let mut rows = vec![("`top` alone", vec![lines("top")]), ("a small rule", vec![lines(SMALL)]), ("40 rules of a site", site())];
    rows.extend(worst.into_iter().map(|(what, rule)| (what, vec![lines(&rule)])));
    rows.into_iter().map(|(what, rules)| Row { what, rules: started(conversion, rules) }).collect()
}
