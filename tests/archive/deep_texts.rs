//! The deepest and longest typed queries, of 4,096 bytes each, and their refusals by hand.

use crate::chains::Chain;
use crate::paper::{refusal, Refusal, NONE};
use crate::typed::TEXT_LIMIT;

/// `front`, then as often as it fits `link`, with a `tail` for each link behind `middle`; `end`, and white space up to the limit.
fn deep(name: &str, front: &str, link: &str, middle: &str, tail: &str, end: &str) -> Chain {
    let links = (TEXT_LIMIT - front.len() - middle.len() - end.len()) / (link.len() + tail.len());
    let text = [front, &link.repeat(links), middle, &tail.repeat(links), end].concat();
    Chain { name: format!("{name}, {links} times"), query: padded(&text), refusal: NONE }
}

/// A text with white space behind it, up to the limit.
pub fn padded(text: &str) -> Vec<u8> {
    format!("{text:TEXT_LIMIT$}").into_bytes()
}

fn nested() -> Vec<Chain> {
    let groups = |name: &str, link: &str, middle: &str, tail: &str| deep(name, "", link, middle, tail, "");
    vec![
        groups("nested groups", "{", "", "}"),
        groups("nested groups behind a triple", "{1 2 3", "{}", "}"),
        groups("nested groups behind a triple of variables", "{?0?1?2", "{}", "}"),
        groups("nested groups before a triple", "{", "{}", "1 2 3}"),
        groups("nested groups between triples", "{1 2 3", "{}", "1 2 3}"),
        groups("nested groups behind a filter", "{FILTER(BOUND(?0))", "{}", "}"),
        groups("nested groups before a filter", "{", "{}", "FILTER(?0=1)}"),
        groups("nested groups with TRUST AS", "{", "{}", "TRUST AS?0}"),
        groups("nested groups with ENSURE TRUST", "{", "{}", "ENSURE TRUST(0,1)}"),
        groups("nested groups with all of these", "{1 2 3 FILTER(?0=1)TRUST AS?0 ENSURE TRUST(0,1)", "{}", "4 5 6}"),
        groups("nested OPTIONAL", "{OPTIONAL", "{}", "}"),
        groups("nested OPTIONAL behind a triple", "{1 2 3 OPTIONAL", "{}", "}"),
        groups("nested OPTIONAL before a triple", "{OPTIONAL", "{}", "1 2 3}"),
        groups("nested OPTIONAL before a filter", "{OPTIONAL", "{}", "FILTER(?0=1)}"),
        groups("nested OPTIONAL behind a filter", "{FILTER(?0=1)OPTIONAL", "{}", "}"),
        groups("nested groups and OPTIONAL", "{{OPTIONAL", "{}", "}}"),
        groups("unions to the left", "{", "{}", "UNION{}}"),
        groups("unions to the right", "{{}UNION", "{}", "}"),
        groups("unions to the left of triples", "{", "{}", "UNION{1 2 3}}"),
        groups("unions to the right of triples", "{{1 2 3}UNION", "{}", "}"),
        groups("unions between triples", "{1 2 3{}UNION", "{}", "4 5 6}"),
    ]
}

fn conditions() -> Vec<Chain> {
    let [open, close] = ["{", "}"].map(|brace| brace.repeat(1_000));
    let filter = |name: &str, link: &str, middle: &str, tail: &str| deep(name, "{FILTER(", link, middle, tail, ")}");
    vec![
        filter("parentheses", "(", "?0=?1", ")"),
        filter("!", "!", "BOUND(?0)", ""),
        filter("! and parentheses", "!(", "?0=?1", ")"),
        filter("&&", "?0=1&&", "?0=1", ""),
        filter("||", "?0<?1||", "BOUND(?0)", ""),
        filter("&& and ||", "?0=1&&?0=2||", "?0=3", ""),
        filter("&& to the right", "?0=1&&(", "?0=1", ")"),
        filter("|| to the right", "?0=1||(", "?0=1", ")"),
        filter("&& to the left", "(", "?0=1", ")&&?0=1"),
        filter("|| and && to the right", "?0=1||?0=2&&(", "?0=3", ")"),
        deep("parentheses in 1,000 groups", &format!("{open}FILTER("), "(", "?0=?1", ")", &format!("){close}")),
        deep("parentheses in OPTIONAL", "{OPTIONAL{FILTER(", "(", "?0=?1", ")", ")}}"),
        deep("! in OPTIONAL", "{OPTIONAL{FILTER(", "!", "BOUND(?0)", "", ")}}"),
    ]
}

fn long() -> Vec<Chain> {
    let row = |name: &str, link: &str| deep(name, "{", link, "", "", "}");
    vec![
        row("groups in a row", "{}"),
        row("groups of triples in a row", "{1 2 3}"),
        row("triples in a row", "1 2 3."),
        row("OPTIONAL in a row", "OPTIONAL{}"),
        row("OPTIONAL of triples in a row", "OPTIONAL{1 2 3}"),
        row("OPTIONAL of filters in a row", "OPTIONAL{FILTER(?0=1)}"),
        row("filters in a row", "FILTER(?0=1)"),
        row("TRUST AS in a row", "TRUST AS?0 "),
        row("ENSURE TRUST in a row", "ENSURE TRUST(0,1)"),
        row("all in a row", "1 2 3{4 5 6}OPTIONAL{}FILTER(?0=1)TRUST AS?0 ENSURE TRUST(0,1)"),
        deep("UNION in a row", "{{}", "UNION{}", "", "", "}"),
        deep("UNION of triples in a row", "{{}", "UNION{1 2 3}", "", "", "}"),
    ]
}

fn refused() -> Vec<Chain> {
    let start = |name: &str, front: &str, link: &str, refusal: Refusal| {
        let text = [front, &link.repeat(TEXT_LIMIT)].concat();
        Chain { name: name.to_string(), query: text.as_bytes()[..TEXT_LIMIT].to_vec(), refusal }
    };
    let only_start = refusal(11, TEXT_LIMIT);
    let mut chains = vec![
        start("groups that are only opened", "", "{", only_start),
        start("groups that are only opened, behind triples", "", "{1 2 3", only_start),
        start("OPTIONAL that is only opened", "", "{OPTIONAL", only_start),
        start("unions that are only opened", "", "{{}UNION", only_start),
        start("parentheses that are only opened", "{FILTER(", "(", only_start),
        start("! with no end", "{FILTER(", "!", only_start),
        start("&& with no end", "{FILTER(?0=1", "&&?0=1", only_start),
        start("triples with no end", "{", "1 2 3.", only_start),
        start("white space", "", " ", only_start),
    ];
    // The last brace, or the last parenthesis, is wrong.
    for mut chain in [deep("groups", "", "{", "", "}", ""), deep("parentheses", "{FILTER(", "(", "?0=?1", ")", "")] {
        let last = chain.query.iter().rposition(|byte| *byte != b' ').expect("a byte");
        chain.query[last] = b'x';
        chains.push(Chain { name: format!("{}, but the last", chain.name), refusal: refusal(11, last), ..chain });
    }
    chains
}

/// Every shape.
pub fn all() -> Vec<Chain> {
    [nested(), conditions(), long(), refused()].into_iter().flatten().collect()
}

/// A few levels of everything.
pub fn shallow() -> Vec<Chain> {
    let texts = [
        "{}",
        "{1 2 3}",
        "{{{}}}",
        "{OPTIONAL{OPTIONAL{1 2 3}}}",
        "{{}UNION{{}UNION{}}}",
        "{FILTER(!(!BOUND(?0)&&(?0=1||?0<?1)))}",
        "{?0 1 2 TRUST AS ?1 ENSURE TRUST(0,1) FILTER(?0=1)}",
    ];
    texts.map(|text| Chain { name: text.to_string(), query: text.into(), refusal: NONE }).into()
}
