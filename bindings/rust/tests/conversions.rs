//! The nine conversions through the static library: document 01's pairs, the refusals, the lent buffers, threads.
mod rules;

use rules::{atom, before_existential, iff_chain, lines, pairs, to_the_right, under};
use std::thread;
use wasileko::Conversion::{self, *};
use wasileko::{convert, convert_into, Refusal, OUT, WORK};

fn renamed(name: &str) -> Vec<u8> {
    lines(&format!("imp / pred Q 1 / var {name} / ex {name} / pred P 1 / var {name}"))
}

fn refused(number: u64, place: usize) -> Result<Vec<u8>, Refusal> {
    Err(Refusal { number, place })
}

const IFF: &str = "iff / pred P 1 / var x / pred Q 1 / var y";
const REBOUND: &str = "all x / ex y / all x / pred P 2 / var x / var y";
const TWO: &str = "ex z y / pred R 2 / var y / var z";
const TWICE: &str = "ex x x / pred P 1 / var x";

#[test]
fn pairs_with_their_texts() {
    let cases: [(Conversion, &str, &str); 21] = [
        (
            Pnf,
            "imp / pred Q 2 / var x / var y / ex x y / pred P 2 / var x / var y",
            "ex x` y` / imp / pred Q 2 / var x / var y / pred P 2 / var x` / var y`",
        ),
        (Pnf, "and / pred R 2 / var x / var x` / ex x / pred Q 1 / var x", "ex x`` / and / pred R 2 / var x / var x` / pred Q 1 / var x``"),
        (Snf, "and / all x / pred P 1 / var x / ex x / pred Q 1 / var x", "all x / and / pred P 1 / var x / pred Q 1 / fun f#0 1 / var x"),
        (Nnf, &format!("not / {IFF}"), "or / and / pred P 1 / var x / not / pred Q 1 / var y / and / not / pred P 1 / var x / pred Q 1 / var y"),
        (
            Cnf,
            IFF,
            "clauses 2 / clause 2 / pos / pred P 1 / var x / neg / pred Q 1 / var y / clause 2 / pos / pred Q 1 / var y / neg / pred P 1 / var x",
        ),
        (PnfSnf, REBOUND, "all x / all x / pred P 2 / var x / con c#0"),
        (Snf, REBOUND, "all x / pred P 2 / var x / con c#0"),
        (PnfSnf, TWO, "pred R 2 / con c#1 / con c#0"),
        (Snf, TWO, "pred R 2 / con c#0 / con c#1"),
        (PnfSnf, TWICE, "pred P 1 / con c#1"),
        (Snf, TWICE, "pred P 1 / con c#0"),
        (Cnf, "top", "clauses 0"),
        (SnfCnf, "top", "clauses 0"),
        (Dnf, "top", "clauses 1 / clause 0"),
        (SnfDnf, "top", "clauses 1 / clause 0"),
        (Cnf, "bot", "clauses 1 / clause 0"),
        (SnfCnf, "bot", "clauses 1 / clause 0"),
        (Dnf, "bot", "clauses 0"),
        (SnfDnf, "bot", "clauses 0"),
        (Simplify, "and / top / pred P 1 / var x", "pred P 1 / var x"),
        (Cnf, "ex y / pred P 2 / var x / var y", "clauses 1 / clause 1 / pos / pred P 2 / var x / fun f#0 1 / var x"),
    ];
    for (conversion, rule, form) in cases {
        assert_eq!(convert(conversion, &lines(rule)), Ok(lines(form)), "{} of {rule}", conversion.name());
    }
}

#[test]
fn pairs_at_the_limits() {
    assert_eq!(convert(Simplify, &lines(&under("not", 63, "pred P 0"))), Ok(lines("not / pred P 0")));
    for conversion in Conversion::ALL {
        assert_eq!(convert(conversion, &lines(&under("not", 64, "pred P 0"))), refused(3, 65));
    }
    let weight = |text: Vec<u8>| text.iter().filter(|&&byte| byte == b'\n').count();
    assert_eq!(convert(Nnf, &lines(&iff_chain(8))).map(weight), Ok(954));
    assert_eq!(convert(Nnf, &lines(&iff_chain(9))), refused(7, 4));
    for (conversion, outer, inner) in [(Cnf, "or", "and"), (SnfCnf, "or", "and"), (Dnf, "and", "or"), (SnfDnf, "and", "or")] {
        let text = String::from_utf8(convert(conversion, &lines(&pairs(outer, inner, 8))).unwrap()).unwrap();
        assert!(text.starts_with("clauses\t256\nclause\t8\npos\n"));
        assert_eq!(text.matches("pos\n").count(), 2_048);
        assert_eq!(convert(conversion, &lines(&format!("{inner} / pred c 0 / {}", pairs(outer, inner, 8)))), refused(8, 5));
        assert_eq!(convert(conversion, &lines(&pairs(outer, inner, 9))), refused(8, 5));
    }
    for conversion in [Snf, Cnf, Dnf, PnfSnf] {
        assert!(convert(conversion, &lines(&before_existential(32))).is_ok());
        assert_eq!(convert(conversion, &lines(&before_existential(33))), refused(7, 3));
    }
    for conversion in [Pnf, Snf, Cnf, Dnf] {
        assert!(convert(conversion, &renamed(&"v".repeat(23))).is_ok());
        assert_eq!(convert(conversion, &renamed(&"v".repeat(24))), refused(6, 2));
    }
}

#[test]
fn refusals() {
    for conversion in Conversion::ALL {
        assert_eq!(convert(conversion, b""), refused(2, 1));
        assert_eq!(convert(conversion, b"top"), refused(2, 1));
        assert_eq!(convert(conversion, &lines("and / top")), refused(2, 3));
        assert_eq!(convert(conversion, &lines("not / var x")), refused(2, 2));
        assert_eq!(convert(conversion, b"not\ntop\n\xff\n"), refused(2, 3));
    }
    for conversion in [PnfSnf, SnfCnf, SnfDnf] {
        assert_eq!(convert(conversion, &lines("not / ex x / pred P 1 / var x")), refused(4, 0));
    }
    for conversion in [Snf, Cnf, Dnf, PnfSnf] {
        assert_eq!(convert(conversion, &lines("pred P 1 / con c#7")), refused(5, 0));
    }
    let refusal = convert(Nnf, b"not\ntap\n").unwrap_err();
    assert_eq!(refusal.message(), "the text is malformed");
    assert_eq!(refusal.to_string(), "refused 2: the text is malformed (line 2)");
}

#[test]
fn out_too_short_is_left_as_it_was() {
    let form = lines("or / not / pred P 0 / not / pred Q 0");
    let rule = lines("not / and / pred P 0 / pred Q 0");
    for room in 0..form.len() {
        let (mut out, mut work) = (vec![7; room], vec![1; WORK]);
        assert_eq!(convert_into(Nnf, &rule, &mut out, &mut work), Err(Refusal { number: 1, place: 0 }));
        assert_eq!((out, work), (vec![7; room], vec![0; WORK]));
    }
    let (mut out, mut work) = (vec![7; form.len() + 3], vec![1; WORK + 5]);
    assert_eq!(convert_into(Nnf, &rule, &mut out, &mut work), Ok(form.len()));
    assert_eq!((&out[..form.len()], &out[form.len()..]), (&form[..], &[7; 3][..]));
    assert_eq!(work, vec![0; WORK + 5]);
}

#[test]
fn work_too_short_is_left_as_it_was() {
    for conversion in Conversion::ALL {
        for (text, length) in [(&b"top\n"[..], WORK - 1), (b"nonsense", 0)] {
            let (mut out, mut work) = (vec![7; 64], vec![1; length]);
            assert_eq!(convert_into(conversion, text, &mut out, &mut work), Err(Refusal { number: 9, place: 0 }));
            assert_eq!((out, work), (vec![7; 64], vec![1; length]));
        }
    }
}

// 8 pairs of wide atoms: a listing of over a megabyte.
#[test]
fn convert_grows_its_buffer() {
    let names = vec!["v".repeat(24); 31];
    let pair = |at: usize| format!("and / {} / {}", atom(&format!("a{at}"), &names), atom(&format!("b{at}"), &names));
    let rule = to_the_right("or", &(0..8).map(pair).collect::<Vec<_>>());
    let text = convert(Cnf, &lines(&rule)).unwrap();
    assert!(text.len() > 16 * OUT);
    assert!(text.starts_with(b"clauses\t256\nclause\t8\n"));
}

#[test]
fn many_calls_in_the_same_buffers() {
    let (mut out, mut work) = (vec![0; OUT], vec![0; WORK]);
    let large = lines(&pairs("or", "and", 8));
    let small = lines(IFF);
    let broken = lines("iff / pred P 1 / var x");
    for conversion in Conversion::ALL {
        let alone = [convert(conversion, &large), convert(conversion, &small), convert(conversion, &broken)];
        for _ in 0..200 {
            for (rule, expected) in [&large, &small, &broken].into_iter().zip(&alone) {
                let got = convert_into(conversion, rule, &mut out, &mut work).map(|length| out[..length].to_vec());
                assert_eq!(&got, expected);
            }
        }
    }
}

#[test]
fn threads_in_parallel() {
    let rules = [lines(&pairs("or", "and", 8)), lines(IFF), lines(&iff_chain(8)), lines(TWO), lines(&before_existential(32)), renamed("v")];
    let all = |rules: &[Vec<u8>]| -> Vec<_> {
        let each = |conversion: Conversion| rules.iter().map(move |rule| convert(conversion, rule));
        Conversion::ALL.into_iter().flat_map(each).collect()
    };
    let alone = all(&rules);
    thread::scope(|scope| {
        for _ in 0..8 {
            scope.spawn(|| (0..20).for_each(|_| assert_eq!(all(&rules), alone)));
        }
    });
}
