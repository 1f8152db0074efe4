//! Texts: sound ones in every shape, and damaged ones.

use answers::*;

struct Case {
    text: Vec<u8>,
    order: usize,
    scratch: usize,
}

/// In an order and a scratch of a few entries more than the plain text's.
fn case(text: impl Into<Vec<u8>>) -> Case {
    Case { text: text.into(), order: 5, scratch: 3 }
}

pub fn write(sheet: &mut Sheet, rules: &mut Rules, draws: &mut Draws) {
    let mut cases = of_the_reference(draws);
    cases.extend(keys());
    cases.extend(spaces(draws));
    cases.extend(scores());
    cases.extend(whole_numbers());
    cases.extend(five_digits());
    cases.extend(checked());
    cases.extend(rooms());
    cases.extend(malformed());
    cases.extend(damaged(draws));
    cases.extend(low_firsts(draws));
    sheet.note("Readings. Each: the text's bytes, their number first; the entries of the order and of the scratch. Answer: the refusal, B, the width,");
    sheet.note("the division, the pattern of z, 20 bits and low_first; the order; the scratch. Every entry of a buffer is 99 before.");
    sheet.case([cases.len()]);
    let mut refusals = [0; 32];
    for case in &cases {
        sheet.list(&case.text);
        sheet.case([case.order, case.scratch]);
        let answer = rules.read(&case.text, case.order, case.scratch);
        refusals[answer[0][0] as usize] += 1;
        if answer[0][0] == 0 {
            same_there(&case.text, &answer);
        }
        answer.iter().for_each(|line| sheet.answer(line));
    }
    for number in [0, 1, 2, 7, 9, 10, 11, 13, 14, 16, 17] {
        assert!(refusals[number] > 0, "no reading that is answered {number}");
    }
}

/// That the reference reads an accepted text as the same numbers and finds them sound. A z that no double is near it does not read. It does not know
/// low_first: that serde reads it the same, as a member of its own.
fn same_there(text: &[u8], answer: &[Vec<u64>; 3]) {
    let found = match from_json(text) {
        Ok(found) => found,
        Err(words) => return assert!(words.contains("number out of range"), "{words}"),
    };
    let width = found.bits.len();
    let numbers = [vec![0, found.block_size, width, found.division, 0], found.bits.clone(), vec![0; 20 - width]].concat();
    assert_eq!(answer[0][..25], numbers.iter().map(|&number| number as u64).collect::<Vec<_>>());
    assert_eq!(answer[1][..found.order.len()], found.order.iter().map(|&bin| bin as u64).collect::<Vec<_>>());
    assert_eq!(validate(&found), Ok(()));
    assert_eq!(low_first(text).map(u64::from), Ok(answer[0][25]));
}

/// What the reference's search finds, as the reference writes it, on one line, on several and in its report; and drawn findings.
fn of_the_reference(draws: &mut Draws) -> Vec<Case> {
    let mut cases = Vec::new();
    let mut add = |found: &Finding, more: usize| {
        let bins = found.order.len();
        let mut texts = vec![to_json(found)];
        if bins <= 16 {
            texts.extend([to_json_pretty(found), to_json_in_report(found)]);
        }
        for text in texts {
            cases.push(Case { text: text.into(), order: bins + more, scratch: bins + 2 * more });
        }
    };
    for (j, (block_size, k)) in [(8, 1), (8, 2), (16, 3), (24, 4), (64, 2), (8, 6), (8, 8)].into_iter().enumerate() {
        let bytes = recording(draws, j, 30 * block_size / 8);
        add(&bottomup(&bytes, block_size, k, 1).unwrap(), j % 3);
    }
    for (j, (block_size, k)) in [(4096, 1), (4096, 2), (1000, 3), (512, 5)].into_iter().enumerate() {
        let (bits, order) = (draws.subset(block_size, k), draws.shuffled(1 << k));
        let division = 1 + draws.below((1 << k) - 1);
        add(&Finding { block_size, bits, order, division, z: 0.5 }, j % 2);
    }
    cases
}

const BITS: &str = r#""bits":[3]"#;
const INDICES: &str = r#""sorted_indices":[1,0]"#;
const DIVISION: &str = r#""best_division":1"#;
const BLOCK: &str = r#""block_size":8"#;
const PLAIN: [&str; 4] = [BITS, INDICES, DIVISION, BLOCK];

fn object(members: &[&str]) -> String {
    format!("{{{}}}", members.join(","))
}

/// The plain text, with another member in the place of one of its own.
fn with(place: usize, member: &str) -> Case {
    let mut members = PLAIN;
    members[place] = member;
    case(object(&members))
}

/// The plain text with a member more.
fn and(member: &str) -> Case {
    case(object(&[BITS, INDICES, member, DIVISION, BLOCK]))
}

/// All orders of a list.
fn orders<T: Clone>(list: &[T]) -> Vec<Vec<T>> {
    if list.is_empty() {
        return vec![vec![]];
    }
    let mut all = Vec::new();
    for i in 0..list.len() {
        let rest = [&list[..i], &list[i + 1..]].concat();
        all.extend(orders(&rest).into_iter().map(|order| [vec![list[i].clone()], order].concat()));
    }
    all
}

/// The keys in every order, alone and with a z_score in one of the five places; one of them missing, twice, another, in another spelling.
fn keys() -> Vec<Case> {
    let mut cases: Vec<Case> = orders(&PLAIN).iter().map(|members| case(object(members))).collect();
    for (i, members) in [vec![PLAIN.to_vec(); 5], orders(&PLAIN)].concat().into_iter().enumerate() {
        let mut members = members;
        members.insert(i % 5, r#""z_score":-2.5"#);
        cases.push(case(object(&members)));
    }
    for (place, member) in PLAIN.into_iter().enumerate() {
        let rest: Vec<&str> = PLAIN.into_iter().filter(|other| *other != member).collect();
        cases.push(case(object(&rest)));
        cases.push(case(object(&[&rest[..], &[r#""z_score":1"#]].concat())));
        cases.push(case(object(&[&PLAIN[..], &[member]].concat())));
        let (key, value) = member.split_once(':').unwrap();
        let key = key.trim_matches('"');
        let capital = key[..1].to_uppercase() + &key[1..];
        let escape = format!("\\u{:04x}{}", key.as_bytes()[0], &key[1..]);
        let escape_inside = format!("{}\\u{:04X}{}", &key[..2], key.as_bytes()[2], &key[3..]);
        let others = [
            capital, escape, escape_inside, key[1..].to_string(), key[..key.len() - 1].to_string(), format!("{key} "), format!("{key}s"),
            format!("{key}\0"), String::new(),
        ];
        cases.extend(others.iter().map(|other| with(place, &format!("\"{other}\":{value}"))));
        cases.push(with(place, &format!("{key}:{value}")));
        cases.push(with(place, &format!("'{key}':{value}")));
        cases.push(with(place, &format!("\"{key}\"={value}")));
        cases.push(with(place, &format!("\"{key}\"{value}")));
        cases.push(with(place, &format!("\"{key}\":")));
        cases.push(with(place, &format!("\"{key}\"")));
        cases.push(with(place, value));
        for other in ["null", "\"1\"", "{}", "[[1,0]]", "[1,[0]]", "[null]", "[\"3\"]"] {
            cases.push(with(place, &format!("\"{key}\":{other}")));
        }
        cases.push(with(place, &format!("\"{key}\":{}", if value.starts_with('[') { "1" } else { "[1]" })));
    }
    for member in [
        r#""z_score":1,"z_score":1"#, r#""z":1"#, r#""Z_score":1"#, r#""z_score ":1"#, r#""z\u005fscore":1"#, r#""zscore":1"#, r#""k":1"#, r#""":1"#,
        r#""sorted indices":[1,0]"#, r#""low":true"#,
    ] {
        cases.push(and(member));
    }
    cases
}

const TOKENS: [&str; 27] = [
    "{", "\"bits\"", ":", "[", "3", "]", ",", "\"sorted_indices\"", ":", "[", "1", ",", "0", "]", ",", "\"best_division\"", ":", "1", ",", "\"z_score\"", ":",
    "-0.5e1", ",", "\"block_size\"", ":", "8", "}",
];

/// Bytes put between two tokens of the plain text with a z_score; before the first and behind the last, too.
fn between(place: usize, bytes: &[u8]) -> Vec<u8> {
    [TOKENS[..place].concat().as_bytes(), bytes, TOKENS[place..].concat().as_bytes()].concat()
}

/// White space of every kind in every place between two tokens, in all places at once, and much of it; what is no white space there; white space inside a token.
fn spaces(draws: &mut Draws) -> Vec<Case> {
    let mut cases = Vec::new();
    for place in 0..=TOKENS.len() {
        for space in [" \t", "\n\r"] {
            cases.push(case(between(place, space.as_bytes())));
        }
        let others: [&[u8]; 6] = [b"\x0b", b"\x0c", b"\0", b"\xa0", b"\xc2\xa0", b"\x1f"];
        if place % 2 == 0 {
            cases.push(case(between(place, others[place / 2 % 6])));
        }
    }
    cases.push(case(" \t\n\r".to_string() + &TOKENS.map(|token| token.to_string() + " \t\n\r").concat()));
    cases.push(case("\r\n".to_string() + &TOKENS.map(|token| token.to_string() + "\r\n").concat()));
    cases.push(case(between(draws.below(28), &[b' '; 200])));
    for token in ["\"bits\"", "\"sorted_indices\"", "\"best_division\"", "\"z_score\"", "-0.5e1"] {
        let place = TOKENS.iter().position(|other| *other == token).unwrap();
        let inside = 1 + draws.below(token.len() - 1);
        let torn = format!("{} {}", &token[..inside], &token[inside..]);
        cases.push(case([TOKENS[..place].concat(), torn, TOKENS[place + 1..].concat()].concat()));
    }
    cases.push(with(0, r#""bits":[1 2]"#));
    cases.push(with(3, r#""block_size":1 6"#));
    cases
}

/// A z_score in every form of a number, and in forms that are none.
fn scores() -> Vec<Case> {
    let numbers = [
        "0", "-0", "7", "-7", "10", "0.0", "-0.0", "0.5", "12.3450", "1e5", "1E5", "1e+5", "1e-5", "1E+05", "-1.50E-3", "0e0", "0E-00", "-0.0e-0",
        "1e400", "-1e400", "1e-400", "123456789012345678901234567890", "-123456789012345678901234567890.5", "4294967296", "1e99999999999999999999",
        "1.7976931348623157e308", "9007199254740993",
    ];
    let others = [
        "NaN", "Infinity", "-Infinity", ".5", "-.5", "1.", "-1.", "1.e5", "1e", "1E", "1e+", "1e-", "1e+-1", "1e1.5", "1e1e1", "1.5.5", "+1", "+0",
        "01", "-01", "00", "-00", "00.5", "-", "--1", "- 1", "1-", "1+1", "0x10", "1,5", "e5", "null", "true", "false", "\"1\"", "\"\"", "[]", "[1]",
        "{}", "", "1 .5", "1. 5", "1 e5", "1e 5", "1e+ 5", "\u{ff11}", "1\0", "'1'", "1:1",
    ];
    numbers.iter().chain(&others).map(|number| and(&format!("\"z_score\":{number}"))).collect()
}

/// Numbers of five digits and about it, in the arrays.
fn five_digits() -> Vec<Case> {
    let bits = [
        "12345", "12345,23456", "1234,56789", "10000,1", "01234", "00000", "123456", "12345 ,1", "1234a", "12a45", "12345a", "12345.0", "-12345", "12345,", "12345,,1",
    ];
    let indices = ["99999", "10000,99999", "1,10000,0", "09999", "1234567890", "99999\n", "9999/", "9:999", "99999e0", "99999]", "99999,"];
    let bits = bits.map(|list| with(0, &format!("\"bits\":[{list}]")));
    let indices = indices.map(|list| with(1, &format!("\"sorted_indices\":[{list}]")));
    bits.into_iter().chain(indices).collect()
}

/// The numbers of the four keys: in forms that are no whole number, and about 2^32 and what wraps to a small one.
fn whole_numbers() -> Vec<Case> {
    let mut cases = Vec::new();
    for form in [
        "00", "01", "08", "-0", "-1", "+1", "1.0", "1.", "1e0", "1E1", ".5", "0x1", "NaN", "", "-", "4294967295", "4294967296", "4294967297", "4294967304",
        "42949672950", "18446744073709551616", "18446744073709551617", "18446744073709551624",
    ] {
        cases.push(with(0, &format!("\"bits\":[{form}]")));
        cases.push(with(1, &format!("\"sorted_indices\":[1,{form}]")));
        cases.push(with(2, &format!("\"best_division\":{form}")));
        cases.push(with(3, &format!("\"block_size\":{form}")));
    }
    cases.push(with(1, "\"sorted_indices\":[01,0]"));
    cases.push(with(1, "\"sorted_indices\":[4294967296,0]"));
    cases.push(with(1, "\"sorted_indices\":[4294967297,4294967296]"));
    cases
}

/// The members of any four lists and numbers.
fn text_of(bits: &[usize], order: &[usize], division: usize, block_size: usize) -> String {
    to_json(&Finding { block_size, bits: bits.to_vec(), order: order.to_vec(), division, z: 0.0 })
}

/// Sound as texts, and refused by the check: each of its numbers, alone and before others.
fn checked() -> Vec<Case> {
    let mut cases = Vec::new();
    let mut add = |text: String| cases.push(Case { text: text.into(), order: 6, scratch: 5 });
    let (bits, order) = ([3, 9], [2, 0, 3, 1]);
    for block_size in [0, 1, 7, 12, 4097, 4104, 65536, 4294967288, 4294967295] {
        add(text_of(&bits, &order, 2, block_size));
    }
    add(text_of(&[], &order, 2, 16));
    add(text_of(&[], &[], 0, 0));
    add(text_of(&[], &[0], 0, 16));
    for bits in [[9, 3], [3, 3], [3, 16], [16, 17], [4294967295, 0], [0, 4294967295]] {
        add(text_of(&bits, &order, 2, 16));
    }
    for order in [&[][..], &[0], &[2, 0, 3], &[2, 0, 3, 1, 1], &[2, 0, 3, 1, 4, 5], &[4294967295]] {
        add(text_of(&bits, order, 2, 16));
    }
    for order in [[0, 0, 0, 0], [2, 0, 2, 1], [2, 0, 4, 1], [4294967295, 0, 1, 2], [4, 1, 2, 3]] {
        add(text_of(&bits, &order, 2, 16));
        add(text_of(&bits, &order, 0, 16));
    }
    for division in [0, 1, 3, 4, 5, 4294967295] {
        add(text_of(&bits, &order, division, 16));
    }
    add(text_of(&[0, 15], &order, 2, 16));
    // About twenty bits: 20 go on to the order, of which there are few entries; 21 and more are too many, whatever they are.
    for count in [19, 40] {
        let rising: Vec<usize> = (0..count).collect();
        add(text_of(&rising, &order, 2, 64));
        add(text_of(&rising, &[], 2, 60));
    }
    for count in [20, 21, 22] {
        let rising: Vec<usize> = (0..count).collect();
        add(text_of(&rising, &order, 2, 64));
        add(text_of(&rising, &[], 2, 64));
        add(text_of(&rising, &order, 2, 60));
        let falling: Vec<usize> = (0..count).rev().collect();
        add(text_of(&falling, &order, 2, 64));
        add(text_of(&rising, &order, 2, 16));
        let last = |number: &str| text_of(&rising, &order, 2, 64).replace(&format!(",{}]", count - 1), &format!(",{number}]"));
        for number in ["4294967295", "4294967296", "-1", "063"] {
            add(last(number));
        }
    }
    cases
}

/// Orders and scratches that are just long enough, one short, empty; 17 before every number of the check, and 16 before 17.
fn rooms() -> Vec<Case> {
    let mut cases = Vec::new();
    let (bits, order) = ([3, 9], [2, 0, 3, 1]);
    for lent in [0, 3, 4, 5] {
        for scratch in [0, 3, 4, 5] {
            cases.push(Case { text: text_of(&bits, &order, 2, 16).into(), order: lent, scratch });
        }
        if lent == 0 || lent == 5 {
            continue;
        }
        for text in [
            text_of(&bits, &order, 2, 12),
            text_of(&[], &order, 2, 16),
            text_of(&[9, 3], &order, 2, 16),
            text_of(&[3, 16], &order, 2, 16),
            text_of(&[3], &order, 1, 16),
            text_of(&bits, &[2, 0, 0, 1], 2, 16),
            text_of(&bits, &order, 4, 16),
            text_of(&bits, &order, 2, 16) + ",",
        ] {
            cases.push(Case { text: text.into(), order: lent, scratch: 3 });
        }
    }
    cases.push(Case { text: text_of(&bits, &[], 2, 16).into(), order: 0, scratch: 0 });
    cases
}

/// The value of low_first, in a place behind one of the members or before all.
fn low(place: usize, value: &str) -> Case {
    let mut members = PLAIN.map(String::from).to_vec();
    members.insert(place, format!("\"low_first\":{value}"));
    case(format!("{{{}}}", members.join(",")))
}

/// low_first in every place, with a z_score, with white space around each of its tokens and inside them, twice, in other spellings; values that are neither
/// true nor false; beside a refusal; and a byte of it taken out, doubled or changed.
fn low_firsts(draws: &mut Draws) -> Vec<Case> {
    let mut cases = Vec::new();
    for value in ["true", "false"] {
        cases.extend((0..5).map(|place| low(place, value)));
        for place in 0..5 {
            cases.push(low(place, &format!("{value},\"z_score\":0.5")));
        }
        for other in ["true", "false"] {
            cases.push(low(4, &format!("{value},\"low_first\":{other}")));
            cases.push(case(object(&[&format!("\"low_first\":{value}"), BITS, INDICES, &format!("\"low_first\":{other}"), DIVISION, BLOCK])));
        }
    }
    let tokens = [",", "\"low_first\"", ":", "true", "}"];
    let front = &object(&PLAIN)[..object(&PLAIN).len() - 1];
    for (place, token) in tokens.into_iter().enumerate() {
        let with = |token: &str| case([front, &tokens[..place].concat(), token, &tokens[place + 1..].concat()].concat());
        cases.extend([" ", "\t\n", "\r\n  ", "\0", "\x0b", "x"].map(|before| with(&format!("{before}{token}"))));
        cases.extend((1..token.len()).map(|inside| with(&format!("{} {}", &token[..inside], &token[inside..]))));
    }
    for value in [
        "True", "TRUE", "False", "tRue", "1", "0", "\"true\"", "\"false\"", "null", "tru", "t", "truee", "truex", "true1", "truefalse", "falsetrue", "fals",
        "falsey", "false0", "[true]", "{}", "", "-true", "true.", "'true'", "yes", "true false", "true\0", "\0true", "\u{feff}true", "tr\\u0075e", "true:true",
    ] {
        cases.push(low(4, value));
        cases.push(low(1, value));
    }
    for key in ["\"Low_first\"", "\"low_First\"", "\"low_first \"", "\"lowfirst\"", "\"low_firs\"", "\"low_firsts\"", "\"low\\u005ffirst\"", "low_first", "'low_first'"] {
        cases.push(case(object(&[BITS, INDICES, DIVISION, BLOCK, &format!("{key}:true")])));
    }
    for member in ["\"low_first\"true", "\"low_first\"=true", "\"low_first\"", "true", "\"low_first\"::true", "\"low_first\":,"] {
        cases.push(and(member));
    }
    for place in 0..4 {
        let mut members = [&PLAIN[..], &["\"low_first\":true"]].concat();
        members.remove(place);
        cases.push(case(object(&members)));
    }
    for (order, scratch) in [(2, 2), (2, 1), (1, 2), (0, 0)] {
        cases.push(Case { order, scratch, ..low(4, "true") });
    }
    for (place, member) in [(0, "\"bits\":[8]"), (1, "\"sorted_indices\":[1,1]"), (2, "\"best_division\":2"), (3, "\"block_size\":12")] {
        let mut members = [&PLAIN[..], &["\"low_first\":true"]].concat();
        members[place] = member;
        cases.push(case(object(&members)));
    }
    for value in ["true", "false"] {
        let text = low(4, value).text;
        for place in front.len()..text.len() {
            cases.extend(damaged_at(&text, place, b"abcdefilnorstuw_\",:{} 01", draws));
        }
    }
    cases
}

/// No such object at all.
fn malformed() -> Vec<Case> {
    let plain = object(&PLAIN);
    let inner = &plain[1..plain.len() - 1];
    let mut cases: Vec<Case> =
        ["", " ", "{}", "{", "}", "[]", "null", "0", "\"\"", "{{}}", "{,}", "[{}]", "\0", "{\"bits\"}", "{\"bits\":[]}"].map(case).into();
    for behind in [&plain, ",", "]", "}", "\0", "x", " // end", "\u{feff}"] {
        cases.push(case(format!("{plain}{behind}")));
    }
    for before in ["/**/", "\u{feff}", "\0", ",", "[", "{"] {
        cases.push(case(format!("{before}{plain}")));
    }
    for (before, behind) in
        [("[{", "}]"), ("{{", "}}"), ("{\"finding\":{", "}}"), ("(", ")"), ("[", "]"), ("{,", "}"), ("{", ",}"), ("{", ",,}"), ("{", ""), ("", "}"), ("{", "]")]
    {
        cases.push(case(format!("{before}{inner}{behind}")));
    }
    for (each, other) in [(",", ";"), (",", ""), (",", ",,"), (":", "="), ("\"", "'"), ("\"", ""), ("\"", "\\\"")] {
        cases.push(case(plain.replace(each, other)));
    }
    for order in ["[1,0,]", "[,1,0]", "[1,,0]", "[1 0]", "(1,0)", "[1,0", "1,0]", "[1,0]]", "[1;0]", "{1,0}", "[ ]"] {
        cases.push(case(plain.replace("[1,0]", order)));
    }
    for bits in ["[ ]", "[,]", "[3,]"] {
        cases.push(case(plain.replace("[3]", bits)));
    }
    cases.extend(["[[3],[1,0],1,8]", "[[3],[1,0],1,0.5,8]"].map(case));
    let utf_16: Vec<u8> = plain.bytes().flat_map(|byte| [byte, 0]).collect();
    cases.push(case(utf_16));
    cases
}

/// One byte of the plain text taken out, doubled, or changed, at every place; and the text cut off there.
fn damaged(draws: &mut Draws) -> Vec<Case> {
    let plain = object(&PLAIN).into_bytes();
    let bytes = b"0123456789{}[]:,\"-+.eE \t\n\rz_\\/\0\x7f\xff";
    (0..plain.len()).flat_map(|place| damaged_at(&plain, place, bytes, draws)).collect()
}

/// The same at one place of a text, the byte changed to one of these.
fn damaged_at(text: &[u8], place: usize, bytes: &[u8], draws: &mut Draws) -> [Case; 4] {
    let mut changed = text.to_vec();
    while changed == text {
        changed[place] = bytes[draws.below(bytes.len())];
    }
    let taken_out = [&text[..place], &text[place + 1..]].concat();
    let doubled = [&text[..=place], &text[place..]].concat();
    [case(&text[..place]), case(taken_out), case(doubled), case(changed)]
}
