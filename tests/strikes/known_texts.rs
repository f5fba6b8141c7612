//! Files whose text is written down by hand, from document 01.

use crate::program::{Files, Program};
use crate::report::Report;
use crate::tables;
use crate::vectors;

fn refused(number: u32, place: usize) -> String {
    format!("refused {number} at {place}\n")
}

/// Texts of runs that are compared in one report.
struct Texts<'a> {
    program: &'a Program,
    report: &'a mut Report,
}

impl Texts<'_> {
    fn test(&mut self, what: &str, facts: &[u8], query: &[u8], text: &str) {
        self.program.test(self.report, what, &Files::new(facts.to_vec(), query.to_vec()), text);
    }

    /// A query by the names of vectors.rs, on the store W.
    fn on_w(&mut self, what: &str, query: &str, text: &str) {
        self.test(what, &tables::w(), &vectors::query(query), text);
    }
}

/// Cases 1 to 6 and 8 of document 01. Case 7 is about another row space, and 9 about the ceiling.
pub fn cases_of_document(program: &Program, report: &mut Report) {
    let mut texts = Texts { program, report };
    texts.on_w("case 1", "E 10 A B", "rows 1 peak 6 pairs 4\n800 ?0=1 ?1=11\n");
    texts.on_w("case 2", "10 E A E B", "rows 1 peak 3 pairs 1\n800 ?0=1 ?1=11\n");
    texts.on_w("case 3", "E 20 70 A B", "rows 1 peak 7 pairs 4\n800 ?0=1 ?1=11\n");
    texts.on_w("case 4", "E 20 70 E A B", "rows 1 peak 5 pairs 2\n800 ?0=1 ?1=11\n");
    texts.on_w("case 5", "60 0007d0 A", "rows 1 peak 2 pairs 0\n800 ?0=1\n");
    texts.on_w("case 6", "60 0007cf 00", "rows 0 peak 1 pairs 0\n");
    texts.on_w("case 8, no byte", "", "refused 6 at 0\n");
    texts.on_w("case 8, a byte more", "00 00", "refused 6 at 1\n");
}

pub fn absent_files(program: &Program, report: &mut Report) {
    let (w, a) = (tables::w(), vectors::query("A"));
    for (what, facts, query, text) in [
        ("no facts file", None, Some(a), "rows 0 peak 0 pairs 0\n"),
        ("no facts file, the empty set", None, Some(vec![0]), "rows 1 peak 1 pairs 0\n1000\n"),
        ("no facts file, a bad query", None, Some(vec![0, 0]), "refused 6 at 1\n"),
        ("no query file", Some(w), None, "refused 6 at 0\n"),
        ("no query file, a bad table", Some(vec![7; 10]), None, "refused 1 at 0\n"),
        ("neither file", None, None, "refused 6 at 0\n"),
    ] {
        program.test(report, what, &Files { facts, query }, text);
    }
}

/// Trusts and values of every sort, and variables in the order of their numbers.
pub fn values(program: &Program, report: &mut Report) {
    let mut texts = Texts { program, report };
    texts.on_w("an unknown row trust", "A", "rows 2 peak 2 pairs 0\n800 ?0=1\n? ?0=2\n");
    let trusts = [Some(900), None, Some(-5), Some(0), Some(-1_000), Some(1_000), Some(-999), Some(10)];
    let facts: Vec<_> = (11..).zip(trusts).map(|(object, trust)| ([1, 10, object], trust)).collect();
    let projected = "\
rows 8 peak 8 pairs 0
900 ?1=11 ?15=t900
? ?1=12 ?15=t?
-5 ?1=13 ?15=t-5
0 ?1=14 ?15=t0
-1000 ?1=15 ?15=t-1000
1000 ?1=16 ?15=t1000
-999 ?1=17 ?15=t-999
10 ?1=18 ?15=t10
";
    texts.test("projected trusts", &tables::facts(&facts), &vectors::query("5f 01 000001 00000a 100001"), projected);
    // The row's own trust is the lesser; ?3 is the trust of the left operand alone.
    let low = tables::facts(&[([1, 10, 11], Some(-7)), ([1, 20, 21], Some(800))]);
    texts.test(
        "a trust that a merge lowers",
        &low,
        &vectors::query("10 53 A B"),
        "rows 1 peak 3 pairs 1\n-7 ?0=1 ?1=11 ?3=t800\n",
    );
    let one = tables::facts(&[([9, 1_048_575, 100_000], Some(1))]);
    for (what, query, text) in [
        ("variables that fall in the pattern", "01 10000f 100009 100002", "1 ?2=100000 ?9=1048575 ?15=9\n"),
        ("variables of one and two digits", "01 100002 10000a 100001", "1 ?1=100000 ?2=9 ?10=1048575\n"),
        ("a row without a variable", "01 000009 0fffff 0186a0", "1\n"),
        ("a trust alone", "50 01 000009 0fffff 0186a0", "1 ?0=t1\n"),
    ] {
        texts.test(what, &one, &vectors::query(query), &format!("rows 1 peak 1 pairs 0\n{text}"));
    }
}

/// Left joins whose condition errs, by request 3. ?2 is free, so that ?1 = ?2 errs on both merges of the first row of A.
pub fn errors(program: &Program, report: &mut Report) {
    let mut texts = Texts { program, report };
    let kept = "rows 2 peak 6 pairs 4\n800 ?0=1\n? ?0=2\n";
    texts.on_w("an error on every merge", "20 11 02 A B", kept);
    texts.on_w("an error and false", "20 50 21 00000b 11 02 A B", kept);
    texts.on_w("an error and true", "20 60 21 00000c 11 02 A B", "rows 2 peak 6 pairs 4\n200 ?0=1 ?1=12\n? ?0=2\n");
    texts.on_w("an error under a floor", "E 20 11 02 A B", "rows 1 peak 6 pairs 4\n800 ?0=1\n");
    texts.on_w("an error under a floor, rewritten", "E 20 11 02 E A B", "rows 1 peak 4 pairs 2\n800 ?0=1\n");
}

/// Each refusal, and which comes first where several apply.
pub fn refusals(program: &Program, report: &mut Report) {
    let mut texts = Texts { program, report };
    let w = tables::w();
    let cut = &w[..35];
    let zero = [&w[..27], &tables::record([2, 0, 21], true, 0)].concat();
    let unsorted = [&w[9..], &w[..9]].concat();
    let zero_and_unsorted = [&w[..], &tables::record([1, 0, 1], true, 0)].concat();
    let sound = vectors::query("A");
    let long = vec![0; 5_121];
    // Five patterns of different variables: every one matches all 4 records, so there are 4 * 4 * 4 * 4 * 4 rows.
    let choices = "05 P 100003 100004 100005 100006 100007 100008 100009 10000a 10000b 10000c 10000d 10000e";
    for (what, facts, query, number, place) in [
        ("a cut record", cut, &sound, 1, 0),
        ("a term of 0", &zero, &sound, 3, 3),
        ("records out of order", &unsorted, &sound, 4, 3),
        ("3 before 4", &zero_and_unsorted, &sound, 3, 4),
        ("a long query", &w, &long, 5, 0),
        ("a longer query", &w, &vec![0xFF; 100_000], 5, 0),
        ("1 before 5", cut, &long, 1, 0),
        ("3 before 5", &zero, &long, 3, 3),
        ("4 before 5", &unsorted, &long, 4, 3),
        ("an unknown kind", &w, &vectors::query("30 A 70"), 6, 11),
        ("3 before 6", &zero, &vec![], 3, 3),
        ("a clash", &w, &vectors::query("E 51 10 A B"), 7, 4),
        ("4 before 7", &unsorted, &vectors::query("50 A"), 4, 3),
        ("too many rows", &w, &vectors::query(choices), 8, 0),
        ("7 before 8", &w, &vectors::query(&format!("50 {choices}")), 7, 0),
    ] {
        texts.test(what, facts, query, &refused(number, place));
    }
}

/// Facts files about as long as one may be. 7,281 records are 65,529 bytes.
pub fn facts_limit(program: &Program, report: &mut Report) {
    let mut texts = Texts { program, report };
    let more = tables::large(8_000);
    // Records 3,280 and 7,280 of `tables::large` match.
    let query = vectors::query("01 100000 000149 0ffff6");
    texts.test("65,529 bytes", &more[..65_529], &query, "rows 2 peak 2 pairs 0\n279 ?0=1\n? ?0=2\n");
    texts.test("65,528 bytes", &more[..65_528], &query, &refused(1, 0));
    let zeros = vec![0; 700_000];
    for (what, facts) in [
        ("65,530 bytes", &more[..65_530]),
        ("65,531 bytes", &more[..65_531]),
        ("65,538 bytes, whole records", &more[..65_538]),
        ("72,000 bytes, whole records", &more),
        ("65,530 bytes of bad records", &zeros[..65_530]),
        ("700,000 bytes", &zeros),
    ] {
        texts.test(what, facts, &query, &refused(2, 0));
        texts.test(&format!("{what}, a long query"), facts, &[0; 5_121], &refused(2, 0));
        program.test(
            texts.report,
            &format!("{what}, no query file"),
            &Files { facts: Some(facts.to_vec()), query: None },
            &refused(2, 0),
        );
    }
}

/// Queries about as long as one may be: filters that keep the row of the empty set.
pub fn query_limit(program: &Program, report: &mut Report) {
    let mut texts = Texts { program, report };
    let filtered = |filters: usize| [[0x40, 0x70].repeat(filters), vec![0]].concat();
    let projected = |filters: usize| [vec![0x53], filtered(filters)].concat();
    assert_eq!([filtered(2_559).len(), projected(2_559).len(), filtered(2_560).len()], [5_119, 5_120, 5_121]);
    texts.test("a query of 5,119 bytes", &[], &filtered(2_559), "rows 1 peak 1 pairs 0\n1000\n");
    texts.test("a query of 5,120 bytes", &[], &projected(2_559), "rows 1 peak 1 pairs 0\n1000 ?3=t1000\n");
    texts.test("a query of 5,121 bytes", &[], &filtered(2_560), &refused(5, 0));
}

/// 963 rows, one more, and a peak of 963 or one more with fewer rows.
pub fn row_limit(program: &Program, report: &mut Report) {
    let mut texts = Texts { program, report };
    let facts = |count: u32| tables::facts(&(1..=count).map(|object| ([7, 8, object], Some(-3))).collect::<Vec<_>>());
    let lines = |count: u32| (1..=count).map(|object| format!("-3 ?0=7 ?1=8 ?2={object}\n")).collect::<String>();
    for (what, count, query, text) in [
        ("963 rows", 963, "S", format!("rows 963 peak 963 pairs 0\n{}", lines(963))),
        ("964 rows", 964, "S", refused(8, 0)),
        ("964 rows, of which none is kept", 964, "40 4070 S", refused(8, 0)),
        ("963 rows by a union", 962, "30 00 S", format!("rows 963 peak 963 pairs 0\n1000\n{}", lines(962))),
        ("964 rows by a union", 963, "30 S 00", refused(8, 0)),
        ("a peak of 963", 481, "10 00 S", format!("rows 481 peak 963 pairs 481\n{}", lines(481))),
        ("a peak of 964", 481, "30 00 10 00 S", refused(8, 0)),
    ] {
        texts.test(what, &facts(count), &vectors::query(query), &text);
    }
}

/// Joins of 481 and 482 rows that are never compatible: as many pairs as 963 rows allow, once and in as many joins as a query holds.
pub fn most_pairs(program: &Program, report: &mut Report) {
    let of = |predicate: u32, subjects: std::ops::RangeInclusive<u32>| {
        subjects.map(move |subject| ([subject, predicate, 1], None))
    };
    let facts = tables::facts(&of(1, 1..=481).chain(of(2, 1_001..=1_482)).collect::<Vec<_>>());
    let join = "10 01 100000 000001 100001 01 100000 000002 100002";
    let joins = vectors::query(&format!("{}{join}", format!("30 {join} ").repeat(231)));
    assert_eq!(joins.len(), 5_103);
    let mut texts = Texts { program, report };
    texts.test("a join of the most pairs", &facts, &vectors::query(join), "rows 0 peak 963 pairs 231842\n");
    texts.test("232 such joins", &facts, &joins, "rows 0 peak 963 pairs 53787344\n");
}

/// The longest lines: 16 variables whose terms have 7 digits, and a trust of -1000. 963 of them are nearly the longest text.
pub fn longest(program: &Program, report: &mut Report) {
    let mut facts: Vec<_> = (1..=963).map(|i| ([1_000_001, 1_000_000, 1_000_000 + i], Some(-1_000))).collect();
    facts.push(([1_048_575; 3], Some(-1_000)));
    // {?0 1000000 ?1}, and {?2 1048575 ?3} to {?14 1048575 ?15}, which match the last record alone.
    let pairs: String = (1..8).map(|i| format!("10000{:x} 0fffff 10000{:x}", 2 * i, 2 * i + 1)).collect();
    let query = vectors::query(&format!("08 100000 0f4240 100001 {pairs}"));
    let rest: String = (2..16).map(|variable| format!(" ?{variable}=1048575")).collect();
    let lines: String = (1..=963).map(|i| format!("-1000 ?0=1000001 ?1={}{rest}\n", 1_000_000 + i)).collect();
    let text = format!("rows 963 peak 963 pairs 0\n{lines}");
    assert_eq!(text.len(), 26 + 963 * 188);
    Texts { program, report }.test("the longest lines", &tables::facts(&facts), &query, &text);
}
