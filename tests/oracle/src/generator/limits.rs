//! Each limit of document 01 reached, missed by one and passed by one.
use super::make::{
    all, balanced, borrowed, con, ex, fun, not, numbered, on, pred, propositions, to_the_right, var, Join,
};
use super::pairs::{before_existential, iff_chain, renamed, under_nots, variable_of};
use oracle::limits::{OUT, WEIGHT};
use oracle::measure::{negation_weight, prenex_weight, weight};
use razor_fol::syntax::FOF;

type Named = (String, FOF);

/// A rule of exactly this weight that simplify brings down to top: few bytes for much weight.
pub fn vacuous(weight: usize) -> FOF {
    let mut tree = FOF::Top;
    let mut missing = weight - 1;
    while missing > 0 {
        let step = missing.min(33);
        tree = if step == 1 { not(tree) } else { all(&vec!["x"; step - 1], tree) };
        missing -= step;
    }
    tree
}

/// A conjunction of exactly this weight from which nothing can be left out.
fn conjunction(weight: usize) -> FOF {
    let wide = |arguments: usize| on("P", &vec!["x"; arguments]);
    let full = (weight + 1) / 34;
    let missing = weight - (34 * full).saturating_sub(1);
    let mut atoms = vec![wide(32); full];
    let joined = usize::from(full > 0);
    if missing > joined {
        atoms.push(wide(missing - 1 - joined));
    }
    let tree = balanced(FOF::and, atoms);
    if missing == 1 && full > 0 {
        not(tree)
    } else {
        tree
    }
}

// The first of the rules made from 1, 2, 3 ... that measures as asked.
fn fitted(target: u128, measure: fn(&FOF) -> u128, make: impl Fn(usize) -> FOF) -> FOF {
    let found = (1..=WEIGHT as usize + 1).map(make).find(|rule| measure(rule) == target);
    found.unwrap_or_else(|| panic!("no rule measures {target}"))
}

// Below, at and above the weight limit.
fn around(label: &str, measure: fn(&FOF) -> u128, make: impl Fn(usize) -> FOF) -> Vec<Named> {
    let targets = [WEIGHT - 1, WEIGHT, WEIGHT + 1];
    targets.map(|target| (format!("{label}_{target}"), fitted(target, measure, &make))).into()
}

fn depths() -> Vec<Named> {
    let nested = |depth: usize| (2..depth).fold(var("x"), |term, _| fun("f", vec![term]));
    let mut rules = Vec::new();
    for depth in [63, 64, 65] {
        rules.push((format!("formula_depth_{depth}"), under_nots(depth - 1)));
        rules.push((format!("term_depth_{depth}"), pred("P", vec![nested(depth)])));
    }
    rules
}

fn rule_weights() -> Vec<Named> {
    let mut rules = around("vacuous_weight", weight, vacuous);
    rules.extend(around("weight", weight, conjunction));
    rules
}

// Weights of the results of stages 2 and 4, where an iff or a negated conjunction grows.
fn stage_weights() -> Vec<Named> {
    // An iff has an odd weight in prenex form, so that an even one takes a not.
    let iff = |size: usize| {
        let iff = conjunction(size / 2 + 1).iff(ex(&["x"], on("Q", &["x"])));
        if size % 2 == 0 {
            iff
        } else {
            not(iff)
        }
    };
    let implication = |size: usize| conjunction(size).implies(on("Q", &["x"]));
    let mut rules = around("prenex_weight", prenex_weight, iff);
    rules.extend(around("negation_weight", negation_weight, implication));
    rules.extend([7, 8, 9, 60].map(|atoms| (format!("iff_chain_{atoms}"), iff_chain(atoms))));
    // Over the limit with its block, not without: clauses count the matrix alone.
    let blocked = |size: usize| {
        let premise = balanced(FOF::and, vec![on("P", &["x"]); 1 + size / 4]);
        all(&["x"; 32], premise.implies(on("Q", &vec!["x"; size % 4])))
    };
    rules.push(("block_left_off".into(), fitted(WEIGHT + 33, negation_weight, blocked)));
    rules.push(("block_left_off_over".into(), fitted(WEIGHT + 34, negation_weight, blocked)));
    rules
}

fn skolem_weights() -> Vec<Named> {
    let names = numbered("x", 31);
    let names = borrowed(&names);
    let tree = |size: usize| {
        let rest = on("Q", &names).and(conjunction(size));
        all(&names, ex(&["y"], on("P", &["y"; 29]).and(rest)))
    };
    [28, 29, 30].map(|size| (format!("skolem_weight_{}", 995 + size), tree(size))).into()
}

// Skolem functions of 32 and 33 arguments, standing in the result or not.
fn skolem_arguments() -> Vec<Named> {
    let names = numbered("x", 33);
    let (first, second) = (borrowed(&names[..32]), borrowed(&names[32..]));
    let before = |body: FOF| all(&first, all(&second, body));
    let mut rules: Vec<Named> =
        [31, 32, 33].map(|count| (format!("universals_{count}"), before_existential(count))).into();
    rules.push(("unused_function_33".into(), before(ex(&["y"], on("P", &["x1"])))));
    let narrower = ex(&["y"], all(&second, ex(&["z"], on("P", &["z"]))));
    rules.push(("unused_then_used".into(), before(narrower)));
    let free = on("P", &first).and(on("Q", &second)).and(ex(&["y"], on("R", &["y"])));
    rules.push(("free_arguments_33".into(), free));
    rules.push(("free_arguments_32".into(), on("P", &first).and(ex(&["y"], on("R", &["y"])))));
    rules
}

fn names() -> Vec<Named> {
    let mut rules: Vec<Named> =
        [22, 23, 24].map(|bytes| (format!("renamed_{bytes}"), renamed(&variable_of(bytes)))).into();
    let stem = variable_of(22);
    let taken = format!("{stem}`");
    rules.push(("second_backtick_22".into(), on("R", &[&taken]).and(renamed(&stem))));
    let stem = variable_of(23);
    let taken = format!("{stem}`");
    rules.push(("second_backtick_23".into(), on("R", &[&taken]).and(renamed(&stem))));
    let long = variable_of(24);
    rules.push(("unrenamed_24".into(), on("Q", &["x"]).and(ex(&[&long], on("P", &[&long])))));
    rules.push(("heavy_and_long".into(), conjunction(600).iff(renamed(&long))));
    let universals = numbered("x", 32);
    let wide = all(&borrowed(&universals), ex(&["y"], on("P", &borrowed(&universals)).and(on("R", &["y", "z"]))));
    rules.push(("long_before_wide".into(), renamed(&long).and(wide)));
    rules
}

// `#` in a rule: refused where Skolem names are made, ordinary elsewhere.
fn reserved() -> Vec<Named> {
    let constant = || pred("P", vec![con("c#0")]);
    vec![
        ("reserved_constant".into(), constant()),
        ("reserved_function".into(), ex(&["y"], pred("P", vec![fun("f#0", vec![var("y")]), var("y")]))),
        ("reserved_last".into(), pred("P", vec![fun("g", vec![con("c#")])])),
        ("reserved_vanishes".into(), FOF::Bottom.and(constant())),
        ("reserved_in_skolem".into(), all(&["x"], constant())),
        ("reserved_not_prenex".into(), not(ex(&["x"], constant()))),
        ("reserved_and_long".into(), constant().and(renamed(&variable_of(24)))),
    ]
}

// `outer` over `count` pairs of `inner`; with one atom throughout, the clauses merge to one.
fn over_pairs(outer: Join, inner: Join, count: usize, merging: bool) -> FOF {
    let (left, right) = if merging { ("a", "a") } else { ("a", "b") };
    let pair = |number: usize| {
        let atom = |stem: &str| on(&if merging { stem.into() } else { format!("{stem}{number}") }, &[]);
        inner(atom(left), atom(right))
    };
    to_the_right(outer, (0..count).map(pair).collect())
}

// Raw counts around their limits. `many` joins clauses, `wide` widens them: and, or for the conjunctive form.
fn raw_counts(form: &str, many: Join, wide: Join) -> Vec<Named> {
    let one = || on("a", &[]);
    let equal = |join: Join, count: usize| balanced(join, vec![one(); count]);
    let pairs = |count: usize| over_pairs(wide, many, count, true);
    let block = |clauses: usize, width: usize| wide(equal(many, clauses), equal(wide, width));
    let (none, empty) = if form == "cnf" { (FOF::Top, FOF::Bottom) } else { (FOF::Bottom, FOF::Top) };
    let rules = vec![
        ("pairs_8", pairs(8)),
        ("pairs_8_and_one", many(pairs(8), one())),
        ("pairs_9", pairs(9)),
        ("pairs_8_apart", over_pairs(wide, many, 8, false)),
        ("clauses_255", equal(many, 255)),
        ("clauses_256", equal(many, 256)),
        ("clauses_257", equal(many, 257)),
        ("literals_2047", block(89, 22)),
        ("literals_2048", block(128, 15)),
        ("literals_2049", many(block(128, 15), one())),
        ("beside_nothing_9", wide(none.clone(), pairs(9))),
        ("beside_nothing_11", wide(pairs(11), none.clone())),
        ("beside_nothing_14", wide(none.clone(), pairs(14))),
        ("beside_hidden_nothing", wide(pairs(10), many(none.clone(), none.clone()))),
        ("beside_negated_nothing", wide(not(empty.clone()), pairs(10))),
        ("beside_empty", many(wide(empty.clone(), pairs(8)), none)),
        ("empty_among_many", many(empty, one())),
    ];
    rules.into_iter().map(|(label, tree)| (format!("{form}_{label}"), tree)).collect()
}

// Listings of exactly so many bytes: clauses of two literals, one of them wide and the same in all.
fn long_results(form: &str, many: Join, wide: Join) -> Vec<Named> {
    [OUT - 1, OUT, OUT + 1].map(|bytes| (format!("{form}_out_{bytes}"), listing_of(bytes, many, wide))).into()
}

fn listing_of(bytes: usize, many: Join, wide: Join) -> FOF {
    const CLAUSES: usize = 69;
    let name = variable_of(24);
    let shared = on("P", &vec![name.as_str(); 31]);
    let shared_text = "pos\npred\tP\t31\n".len() + 31 * "var\t\n".len() + 31 * 24;
    let fixed = "clauses\t69\n".len() + CLAUSES * ("clause\t2\npos\npred\t\t0\n".len() + shared_text);
    let spread = bytes - fixed;
    let lengths = (0..CLAUSES).map(|number| spread / CLAUSES + usize::from(number < spread % CLAUSES));
    let own = lengths.enumerate().map(|(number, length)| on(&format!("a{number:0>width$}", width = length - 1), &[]));
    wide(balanced(many, own.collect()), shared)
}

/// Every rule at a limit; `form` is the clause form that the conversion makes, if it makes one.
pub fn rules(form: Option<&str>) -> Vec<(String, FOF)> {
    let mut rules = depths();
    rules.extend(rule_weights());
    rules.extend(stage_weights());
    rules.extend(skolem_weights());
    rules.extend(skolem_arguments());
    rules.extend(names());
    rules.extend(reserved());
    rules.push(("block_32".into(), all(&borrowed(&numbered("x", 32)), on("P", &borrowed(&numbered("x", 32))))));
    rules.push(("name_24".into(), balanced(FOF::or, propositions(&"p".repeat(23), 3))));
    if let Some(form) = form {
        let (many, wide): (Join, Join) = if form == "cnf" { (FOF::and, FOF::or) } else { (FOF::or, FOF::and) };
        rules.extend(raw_counts(form, many, wide));
        rules.extend(long_results(form, many, wide));
    }
    rules
}
