//! Typed queries whose answers are written down by hand.

use crate::deep_texts::padded;
use crate::paper::refusal;
use crate::results::Outcome;
use crate::vectors;

/// The example of docs/FORMATS.md.
const EXAMPLE: &str = "{ ?0 20 21 .
      OPTIONAL { ?0 30 ?1 FILTER (!(?1 = 7)) }
      TRUST AS ?2
      ENSURE TRUST (500, 1000) }";

/// Texts and their queries, in which X, Y and Z are the sets of `1 1 1`, `2 2 2` and `3 3 3`.
const QUERIES: &[(&str, &str)] = &[
    (EXAMPLE, "60 5dc7d0 52 20 40 21 000007 A 01 100000 00001e 100001"),
    // White space and dots.
    ("{}", "00"),
    (" \n{ \n} \n", "00"),
    ("{1 1 1}", "X"),
    ("{1\n1 1.}", "X"),
    ("{?0 20 21}", "A"),
    ("{?0?1?2.?3?4?5}", "02 P R"),
    ("{ ?0 ?1 ?2 . ?3 ?4 ?5 . }", "02 P R"),
    ("{1 1 1.2 2 2.3 3 3}", "03 000001 000001 000001 000002 000002 000002 000003 000003 000003"),
    ("{{1 1 1}.2 2 2.}", "10 X Y"),
    ("{1 1 1.{}.OPTIONAL{}.FILTER(BOUND(?0)).TRUST AS?1.ENSURE TRUST(0,0).2 2 2.}", "40 00 60 3e83e8 51 10 20 70 X 00 Y"),
    ("{1 1 1{}OPTIONAL{}FILTER(BOUND(?0))TRUST AS?1 ENSURE TRUST(0,0)2 2 2}", "40 00 60 3e83e8 51 10 20 70 X 00 Y"),
    // Values at their ends.
    ("{1 1048575 ?15}", "01 000001 0fffff 10000f"),
    ("{?0 1048574 999999}", "01 100000 0ffffe 0f423f"),
    ("{ENSURE TRUST(-1000,1000)}", "60 0007d0 00"),
    ("{ENSURE TRUST(1000,-1000)}", "60 7d0000 00"),
    ("{ENSURE TRUST(0,-1)}", "60 3e83e7 00"),
    ("{ENSURE TRUST(1,999)}", "60 3e97cf 00"),
    ("{ENSURE\nTRUST ( -999 , 100 ) }", "60 00144c 00"),
    ("{TRUST AS ?0}", "50 00"),
    ("{TRUST\nAS?15}", "5f 00"),
    ("{FILTER(?15=1048575)}", "40 2f 0fffff 00"),
    // Nothing, and joins.
    ("{{}}", "00"),
    ("{{}{{}}{}}", "00"),
    ("{1 1 1{}2 2 2}", "10 X Y"),
    ("{{}1 1 1{{}{}}}", "X"),
    ("{{1 1 1}{2 2 2}{3 3 3}}", "10 10 X Y Z"),
    ("{{1 1 1}{{2 2 2}{3 3 3}}}", "10 X 10 Y Z"),
    ("{1 1 1{2 2 2}3 3 3}", "10 10 X Y Z"),
    ("{{FILTER(BOUND(?0))}1 1 1}", "10 40 00 00 X"),
    ("{{TRUST AS ?0}1 1 1}", "10 50 00 X"),
    ("{{ENSURE TRUST(0,0)}1 1 1}", "10 60 3e83e8 00 X"),
    ("{FILTER(BOUND(?0))}", "40 00 00"),
    // Unions.
    ("{{}UNION{}}", "30 00 00"),
    ("{{} UNION\n{} UNION {}}", "30 30 00 00 00"),
    ("{{1 1 1}UNION{2 2 2}UNION{3 3 3}}", "30 30 X Y Z"),
    ("{{1 1 1}UNION{{2 2 2}UNION{3 3 3}}}", "30 X 30 Y Z"),
    ("{1 1 1{2 2 2}UNION{}3 3 3}", "10 10 X 30 Y 00 Z"),
    ("{{1 1 1}{2 2 2}UNION{3 3 3}}", "10 X 30 Y Z"),
    ("{{1 1 1 FILTER(BOUND(?0))}UNION{TRUST AS?0}}", "30 40 00 X 50 00"),
    // OPTIONAL.
    ("{OPTIONAL{}}", "20 70 00 00"),
    ("{OPTIONAL{OPTIONAL{}}}", "20 70 00 20 70 00 00"),
    ("{OPTIONAL{}OPTIONAL{}}", "20 70 20 70 00 00 00"),
    ("{OPTIONAL{}1 1 1}", "10 20 70 00 00 X"),
    ("{1 1 1 OPTIONAL{2 2 2}3 3 3}", "10 20 70 X Y Z"),
    ("{{1 1 1}{2 2 2}OPTIONAL{3 3 3}}", "20 70 10 X Y Z"),
    ("{1 1 1 OPTIONAL{2 2 2 FILTER(BOUND(?0))}}", "20 00 X Y"),
    (
        "{1 1 1 OPTIONAL{FILTER(BOUND(?0))2 2 2 FILTER(BOUND(?1))FILTER(BOUND(?2))3 3 3}}",
        "20 50 50 00 01 02 X 02 000002 000002 000002 000003 000003 000003",
    ),
    ("{1 1 1 OPTIONAL{2 2 2 ENSURE TRUST(0,1)FILTER(?0=?1)TRUST AS?2}}", "20 10 01 X 60 3e83e9 52 Y"),
    ("{OPTIONAL{{FILTER(BOUND(?0))}}}", "20 70 00 40 00 00"),
    ("{OPTIONAL{OPTIONAL{FILTER(BOUND(?0))}FILTER(BOUND(?1))}FILTER(BOUND(?2))}", "40 02 20 01 00 20 00 00 00"),
    ("{OPTIONAL{{FILTER(BOUND(?0))}UNION{}}}", "20 70 00 30 40 00 00 00"),
    // Projections, bounds and filters.
    ("{1 1 1 TRUST AS ?1 TRUST AS ?2}", "52 51 X"),
    ("{TRUST AS ?1{TRUST AS ?2}}", "51 52 00"),
    ("{ENSURE TRUST(-1000,1000)ENSURE TRUST(0,-1)}", "60 3e83e7 60 0007d0 00"),
    ("{ENSURE TRUST(0,0)1 1 1 TRUST AS ?1}", "60 3e83e8 51 X"),
    ("{TRUST AS ?1 ENSURE TRUST(0,0)1 1 1}", "60 3e83e8 51 X"),
    ("{FILTER(BOUND(?0))ENSURE TRUST(0,0)TRUST AS ?1 1 1 1}", "40 00 60 3e83e8 51 X"),
    ("{TRUST AS?1 FILTER(BOUND(?0))TRUST AS?2 ENSURE TRUST(0,0)FILTER(BOUND(?3))}", "40 50 00 03 60 3e83e8 52 51 00"),
    ("{FILTER(BOUND(?1))FILTER(BOUND(?2))FILTER(BOUND(?3))}", "40 50 50 01 02 03 00"),
    ("{FILTER(BOUND(?1)){FILTER(BOUND(?2))}}", "40 01 40 02 00"),
    ("{1 1 1 FILTER(BOUND(?0))2 2 2}", "40 00 02 000001 000001 000001 000002 000002 000002"),
    ("{1 1 1 TRUST AS?0 2 2 2}", "50 02 000001 000001 000001 000002 000002 000002"),
    ("{1 1 1 ENSURE TRUST(0,0).2 2 2}", "60 3e83e8 02 000001 000001 000001 000002 000002 000002"),
    ("{1 1 1 OPTIONAL{}FILTER(BOUND(?0))2 2 2}", "40 00 10 20 70 X 00 Y"),
    // Conditions.
    ("{FILTER(?1=?2)}", "40 11 02 00"),
    ("{FILTER(?1 = 2)}", "40 21 000002 00"),
    ("{FILTER(?1<?2)}", "40 31 02 00"),
    ("{FILTER ( ! BOUND ( ?15 ) ) }", "40 40 0f 00"),
    ("{FILTER(!!!BOUND(?1))}", "40 40 40 40 01 00"),
    ("{FILTER((((?1<?2))))}", "40 31 02 00"),
    ("{FILTER(BOUND(?1)&&BOUND(?2)&&BOUND(?3))}", "40 50 50 01 02 03 00"),
    ("{FILTER(BOUND(?1)&&(BOUND(?2)&&BOUND(?3)))}", "40 50 01 50 02 03 00"),
    ("{FILTER(BOUND(?1)||BOUND(?2)||BOUND(?3))}", "40 60 60 01 02 03 00"),
    ("{FILTER(BOUND(?1)||(BOUND(?2)||BOUND(?3)))}", "40 60 01 60 02 03 00"),
    ("{FILTER(BOUND(?1)||BOUND(?2)&&BOUND(?3)||BOUND(?4))}", "40 60 60 01 50 02 03 04 00"),
    ("{FILTER((BOUND(?1)||BOUND(?2))&&(BOUND(?3)||BOUND(?4)))}", "40 50 60 01 02 60 03 04 00"),
    ("{FILTER(!BOUND(?1)&&BOUND(?2))}", "40 50 40 01 02 00"),
    ("{FILTER(!(BOUND(?1)&&BOUND(?2)))}", "40 40 50 01 02 00"),
    ("{FILTER(!(?1=2)||!(!(?3<?4)))}", "40 60 40 21 000002 40 40 33 04 00"),
    ("{FILTER(BOUND(?1)||BOUND(?2))FILTER(BOUND(?3)&&BOUND(?4))}", "40 50 60 01 02 50 03 04 00"),
];

/// A row of so many triples, and a set of them.
fn triples(count: usize) -> String {
    "1 1 1.".repeat(count)
}

fn set(count: usize) -> String {
    format!("{count:02x} {}", "000001 000001 000001 ".repeat(count))
}

/// Rows of triples about as long as a set may be.
fn rows_of_triples() -> Vec<(String, String)> {
    let [eight, fifteen, sixteen] = [8, 15, 16].map(triples);
    let [one, of_8, of_15] = [1, 8, 15].map(set);
    vec![
        (format!("{{{}}}", triples(14)), set(14)),
        (format!("{{{fifteen}}}"), of_15.clone()),
        (format!("{{{sixteen}}}"), format!("10 {of_15} {one}")),
        (format!("{{{}}}", triples(30)), format!("10 {of_15} {of_15}")),
        (format!("{{{}}}", triples(31)), format!("10 10 {of_15} {of_15} {one}")),
        (format!("{{{}}}", triples(46)), format!("10 10 10 {of_15} {of_15} {of_15} {one}")),
        (format!("{{{eight}FILTER(BOUND(?0)){eight}}}"), format!("40 00 10 {of_15} {one}")),
        (format!("{{{fifteen}TRUST AS ?0 1 1 1}}"), format!("50 10 {of_15} {one}")),
        (format!("{{{eight}ENSURE TRUST(0,0){eight}}}"), format!("60 3e83e8 10 {of_15} {one}")),
        (format!("{{{eight}{{}}{eight}}}"), format!("10 {of_8} {of_8}")),
        (format!("{{{fifteen}{{}}1 1 1}}"), format!("10 {of_15} {one}")),
        (format!("{{{eight}OPTIONAL{{}}{eight}}}"), format!("10 20 70 {of_8} 00 {of_8}")),
        (format!("{{{sixteen}{{1 1 1}}{eight}}}"), format!("10 10 10 {of_15} {one} {one} {of_8}")),
        (format!("{{{sixteen}OPTIONAL{{{sixteen}}}}}"), format!("20 70 10 {of_15} {one} 10 {of_15} {one}")),
        (format!("{{{{{sixteen}}}UNION{{{sixteen}}}}}"), format!("30 10 {of_15} {one} 10 {of_15} {one}")),
    ]
}

/// Texts and the bytes of their queries.
pub fn accepted() -> Vec<(String, Vec<u8>)> {
    let sets = [("X", "1 1 1"), ("Y", "2 2 2"), ("Z", "3 3 3")];
    let named = |query: &str| {
        let bytes = sets.iter().fold(query.to_string(), |text, (name, pattern)| text.replace(name, &vectors::set(pattern)));
        vectors::query(&bytes)
    };
    let known = QUERIES.iter().map(|(text, query)| (text.to_string(), named(query)));
    known.chain(rows_of_triples().into_iter().map(|(text, query)| (text, named(&query)))).collect()
}

/// The refused texts of docs/FORMATS.md, and their places.
const IN_FORMATS: [(&str, usize); 19] = [
    ("", 0),
    ("{", 1),
    ("{{} UNIO", 8),
    ("{.}", 1),
    ("{1 2 3..}", 7),
    ("{1 2 3 4", 7),
    ("{0 ", 1),
    ("{01", 1),
    ("{1048576 ", 7),
    ("{?16}", 3),
    ("{ENSURE TRUST(1001", 17),
    ("{ENSURE TRUST(-0", 15),
    ("{1 2 3OPTIONAL{}}", 6),
    ("{optional{}}", 1),
    ("{OPTIONAL{}UNION{}}", 11),
    ("{FILTER BOUND(?0)}", 8),
    ("{FILTER(!?0=?1)}", 9),
    ("{FILTER(1=?0)}", 8),
    ("{} x", 3),
];

/// Starts of right texts, and what goes on behind them with a wrong byte.
const WRONG_BYTES: &[(&str, &str)] = &[
    // Numbers.
    ("{1048575", "0 1 1}"),
    ("{999999", "9 1 1}"),
    ("{1 2 ", "-3}"),
    ("{", "00 1 1}"),
    ("{?1", "6 1 1}"),
    ("{?15", "0 1 1}"),
    ("{?2", "0 1 1}"),
    ("{?0", "1 1 1}"),
    ("{?0", "0 1 1}"),
    ("{?", " 0 1 1}"),
    ("{?", "-1 1 1}"),
    ("{?", "?0 1 1}"),
    ("{ENSURE TRUST(100", "1,0)}"),
    ("{ENSURE TRUST(-100", "1,0)}"),
    ("{ENSURE TRUST(1000", "0,0)}"),
    ("{ENSURE TRUST(101", "0,0)}"),
    ("{ENSURE TRUST(0", "0,0)}"),
    ("{ENSURE TRUST(0", "1,0)}"),
    ("{ENSURE TRUST(-", " 1,0)}"),
    ("{ENSURE TRUST(-", "-1,0)}"),
    ("{ENSURE TRUST(1", "-1,0)}"),
    ("{ENSURE TRUST(", "+1,0)}"),
    ("{ENSURE TRUST(", "?0,0)}"),
    // White space.
    ("{", "\t}"),
    ("{", "\r\n}"),
    ("{}", "\0"),
    ("{TRUST", "AS ?0}"),
    ("{TRUST AS?0", "FILTER(BOUND(?0))}"),
    ("{TRUST AS?1", "OPTIONAL{}}"),
    ("{1 2 ?3", "OPTIONAL{}}"),
    ("{1 2 3", "TRUST AS ?0}"),
    ("{OPTIONAL", "1"),
    ("{OPTIONAL", "OPTIONAL{}}"),
    ("{O", " PTIONAL{}}"),
    ("{FILTER(?0=?1&", " &?0=?1)}"),
    ("{FILTER(?0=?1|", " |?0=?1)}"),
    // Triples and dots.
    ("", "}"),
    ("", "1 2 3"),
    ("", "?0"),
    ("{1", "}"),
    ("{1 2", "}"),
    ("{1 2", ".3}"),
    ("{1 2", "{}}"),
    ("{1 2 ", "OPTIONAL{}}"),
    ("{1 2 3", ",4 5 6}"),
    ("{1 2 3", ";4 5}"),
    ("{1 2 3 ", "?0?1?2}"),
    ("{?0?1?2", "?3?4?5}"),
    ("{1 2 3. ", ". 4 5 6}"),
    ("{1 2 3{}4 5 6 ", "7 8 9}"),
    ("{{}.", ".}"),
    ("{{}. ", ".1 2 3}"),
    ("{OPTIONAL{}.", ".}"),
    ("{FILTER(BOUND(?0)).", ".}"),
    ("{}", "."),
    ("{}", "{}"),
    ("{}", "}"),
    ("{}", "UNION{}"),
    // Elements.
    ("{", "UNION{}}"),
    ("{1 2 3 ", "UNION{}}"),
    ("{{}.", "UNION{}}"),
    ("{{} . ", "UNION{}}"),
    ("{{}UNION", "}"),
    ("{{}UNION ", "UNION{}}"),
    ("{{}UNION ", "OPTIONAL{}}"),
    ("{{}UNION ", "1 2 3}"),
    ("{OPTIONAL", "}"),
    ("{OPTIONAL ", "FILTER(BOUND(?0))}"),
    ("{OPTIONAL ", "1 2 3}"),
    ("{FILTER(BOUND(?0))", "UNION{}}"),
    ("{TRUST ", "?0}"),
    ("{TRUST AS ", "1}"),
    ("{TRUST AS ", "{}}"),
    ("{ENSURE ", "(0,1)}"),
    ("{ENSURE TRUST ", "0,1)}"),
    ("{ENSURE TRUST(0 ", "1)}"),
    ("{ENSURE TRUST(0", ".1)}"),
    ("{ENSURE TRUST(0,", ",1)}"),
    ("{ENSURE TRUST(0,1", ",2)}"),
    ("{ENSURE TRUST(0,1", "}"),
    ("{O", "ptional{}}"),
    ("{OPTION", "al{}}"),
    ("{OPTIONAL", "S{}}"),
    ("{", "AS ?0}"),
    ("{", "BOUND(?0)}"),
    ("{", "(BOUND(?0))}"),
    // Conditions.
    ("{FILTER(", ")}"),
    ("{FILTER(?0", ")}"),
    ("{FILTER(?0=", ")}"),
    ("{FILTER(?0<", "1)}"),
    ("{FILTER(?0", ">?1)}"),
    ("{FILTER(?0", "!=?1)}"),
    ("{FILTER(?0=", "=?1)}"),
    ("{FILTER(?0<", "=?1)}"),
    ("{FILTER(?0=?1", "=?2)}"),
    ("{FILTER(?0=?1&", "|?0=?1)}"),
    ("{FILTER(?0=?1&&", "&?0=?1)}"),
    ("{FILTER(?0=?1&&", ")}"),
    ("{FILTER(?0=?1||", "&&?0=?1)}"),
    ("{FILTER(?0=?1", "}"),
    ("{FILTER(?0=?1)", ")}"),
    ("{FILTER((?0=?1)", "}"),
    ("{FILTER(?0=?1 ", "BOUND(?0))}"),
    ("{FILTER(BOUND ", "?0)}"),
    ("{FILTER(BOUND(", "1)}"),
    ("{FILTER(BOUND(?0", "=?1))}"),
    ("{FILTER(BOUND(?0)", "BOUND(?1))}"),
    ("{FILTER(BOUND(?0)", "=1)}"),
    ("{FILTER(!", "?0<?1)}"),
    ("{FILTER(!!", "?0=1)}"),
    ("{FILTER(!BOUND(?0)", "=1)}"),
    ("{FILTER(!", ")}"),
    ("{FILTER(", "TRUE)}"),
];

/// The starts of right texts, which end before their last brace.
fn starts() -> Vec<Vec<u8>> {
    let texts = accepted().into_iter().map(|(text, _)| text.into_bytes());
    let cut = |text: Vec<u8>| {
        let last = text.iter().rposition(|byte| *byte == b'}').expect("a brace");
        (0..=last).map(move |length| text[..length].to_vec())
    };
    texts.flat_map(cut).collect()
}

/// Refused texts and their places.
pub fn refused() -> Vec<(Vec<u8>, usize)> {
    let in_formats = IN_FORMATS.iter().map(|(text, place)| (text.as_bytes().to_vec(), *place));
    let wrong_bytes = WRONG_BYTES.iter().map(|(right, wrong)| (format!("{right}{wrong}").into_bytes(), right.len()));
    let starts = starts().into_iter().map(|text| (text.clone(), text.len()));
    // No byte but these begins a text, goes on behind a brace, or follows a group.
    let bytes = [(&b""[..], &b" \n{"[..]), (b"{", b" \n{}?123456789OFTE"), (b"{}", b" \n")];
    let single = bytes.into_iter().flat_map(|(right, next)| {
        let wrong = (0..=255u8).filter(move |byte| !next.contains(byte));
        wrong.map(move |byte| ([right, &[byte]].concat(), right.len()))
    });
    in_formats.chain(wrong_bytes).chain(starts).chain(single).collect()
}

/// How many of the first digits of a number from `least` on may begin one that is at most `most`, and whether all of them are one.
fn digits(number: u32, least: u32, most: u32) -> (usize, bool) {
    let digits = number.to_string();
    let fits = |count: &usize| (least..=most).contains(&digits[..*count].parse().expect("digits"));
    let count = (1..=digits.len()).take_while(fits).count();
    (count, count == digits.len())
}

/// A text with a number in it, and the answer: the query, or the place behind `front` and the digits that may stand there.
fn with_number(front: &str, number: u32, end: &str, [least, most]: [u32; 2], query: String) -> (String, Outcome) {
    let (count, right) = digits(number, least, most);
    let expected = if right { Ok(vectors::query(&query)) } else { Err(refusal(11, front.len() + count)) };
    (format!("{front}{number}{end}"), expected)
}

/// Terms, variables and thousandths about the ends of their ranges.
pub fn numbers() -> Vec<(String, Outcome)> {
    const LAST_TERM: u32 = 1_048_575;
    let terms = (0..1_200).chain(LAST_TERM - 600..LAST_TERM + 600).chain([9_999_999, 10_485_750, 104_857_599]);
    let mut texts = Vec::new();
    for term in terms {
        let query = |front: &str, end: &str| format!("{front} {term:06x} {end}");
        let range = [1, LAST_TERM];
        texts.push(with_number("{1 ", term, " 1}", range, query("01 000001", "000001")));
        texts.push(with_number("{FILTER(?0=", term, ")}", range, query("40 20", "00")));
    }
    for variable in 0..170 {
        texts.push(with_number("{1 ?", variable, " 1}", [0, 15], format!("01 000001 1{variable:05x} 000001")));
        texts.push(with_number("{TRUST AS ?", variable, "}", [0, 15], format!("5{variable:x} 00")));
        texts.push(with_number("{FILTER(BOUND(?", variable, "))}", [0, 15], format!("40 0{variable:x} 00")));
    }
    for number in (0..1_100).chain(9_990..10_010) {
        let (above, below) = (number + 1_000, 1_000u32.saturating_sub(number));
        texts.push(with_number("{ENSURE TRUST(", number, ",0)}", [0, 1_000], format!("60 {above:03x} 3e8 00")));
        texts.push(with_number("{ENSURE TRUST(0,-", number, ")}", [1, 1_000], format!("60 3e8 {below:03x} 00")));
    }
    texts
}

/// What a text about as long as the limit is, the text, and the answer.
pub fn at_limit() -> Vec<(&'static str, Vec<u8>, Outcome)> {
    let bytes = |front: &str, link: &str, links: usize, end: &str| [front, &link.repeat(links), end].concat().into_bytes();
    let nested = |open, closed| [vec![b'{'; open], vec![b'}'; closed]].concat();
    let refused = |place| Err(refusal(11, place));
    let optional = [&b"{OPTIONAL".repeat(409)[..], b"{}", &b"}".repeat(409)].concat();
    let parentheses = [b"{FILTER(", &b"(".repeat(2_040)[..], b"?0=?1", &b")".repeat(2_040), b")}"].concat();
    let not = [&[0x40; 4_078][..], &[0x00, 0x00]].concat();
    let unions = [vec![0x30; 584], vec![0x00; 585]].concat();
    vec![
        ("4,095 bytes", bytes("{}", " ", 4_093, ""), Ok(vec![0x00])),
        ("4,096 bytes", padded("{}"), Ok(vec![0x00])),
        ("4,096 bytes, the group last", bytes("", "\n", 4_094, "{}"), Ok(vec![0x00])),
        ("4,096 bytes, a group about white space", bytes("{", " ", 4_094, "}"), Ok(vec![0x00])),
        ("4,096 bytes, the last one wrong", bytes("{}", " ", 4_093, "x"), refused(4_095)),
        ("4,096 bytes, the first one wrong", bytes("", "x", 4_096, ""), refused(0)),
        ("4,096 bytes of white space", bytes("", " ", 4_096, ""), refused(4_096)),
        ("4,096 opening braces", nested(4_096, 0), refused(4_096)),
        ("2,048 groups", nested(2_048, 2_048), Ok(vec![0x00])),
        ("2,048 groups, the last not closed", nested(2_048, 2_047), refused(4_095)),
        ("2,047 groups, and one closed that is not open", nested(2_047, 2_048), refused(4_094)),
        ("4,096 bytes with 4,077 times !", bytes("{FILTER(", "!", 4_077, "BOUND(?0))}"), Ok(not)),
        ("2,040 parentheses", parentheses, Ok(vec![0x40, 0x10, 0x01, 0x00])),
        ("409 times OPTIONAL", optional, Ok([&[0x20, 0x70, 0x00].repeat(409)[..], &[0x00]].concat())),
        ("584 times UNION", bytes("{{}", "UNION{}", 584, "}"), Ok(unions)),
        ("4,097 bytes", bytes("{}", " ", 4_095, ""), refused(4_096)),
        ("4,097 bytes, the first one wrong", bytes("", "x", 4_097, ""), refused(4_096)),
        ("4,097 bytes, the last one wrong", bytes("{}", " ", 4_094, "x"), refused(4_096)),
        ("4,097 opening braces", nested(4_097, 0), refused(4_096)),
        ("2,049 groups", nested(2_049, 2_049), refused(4_096)),
        ("8,192 bytes", bytes("{}", "\n", 8_190, ""), refused(4_096)),
    ]
}
