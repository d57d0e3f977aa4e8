//! Records read back, by small parsers of their own: CSV as RFC 4180 has it, and
//! of JSON a list of objects whose values are texts, numbers or null.

use std::collections::BTreeMap;
use std::iter::Peekable;
use std::str::Chars;

/// A row: what stands under each name; `None` is empty or null.
pub type Fields = BTreeMap<String, Option<String>>;

pub fn csv(text: &str) -> Vec<Fields> {
    let mut signs = text.chars().peekable();
    let mut rows = Vec::new();
    while signs.peek().is_some() {
        rows.push(csv_row(&mut signs));
    }
    let names = rows.remove(0);
    let fields = |row: Vec<String>| {
        assert_eq!(row.len(), names.len());
        let values = row
            .into_iter()
            .map(|text| (!text.is_empty()).then_some(text));
        names.iter().cloned().zip(values).collect()
    };
    rows.into_iter().map(fields).collect()
}

/// A row to its CR LF.
fn csv_row(signs: &mut Peekable<Chars>) -> Vec<String> {
    let mut row = Vec::new();
    loop {
        row.push(csv_field(signs));
        match signs.next() {
            Some(',') => {}
            Some('\r') => {
                assert_eq!(signs.next(), Some('\n'));
                return row;
            }
            other => panic!("{other:?} behind a field"),
        }
    }
}

fn csv_field(signs: &mut Peekable<Chars>) -> String {
    let mut field = String::new();
    if signs.next_if_eq(&'"').is_none() {
        while let Some(sign) = signs.next_if(|sign| ![',', '\r', '\n', '"'].contains(sign)) {
            field.push(sign);
        }
        return field;
    }
    loop {
        match signs.next().expect("a quote that ends the field") {
            '"' if signs.next_if_eq(&'"').is_none() => return field,
            sign => field.push(sign),
        }
    }
}

pub fn json(text: &str) -> Vec<Fields> {
    let mut signs = text.chars().peekable();
    let mut rows = Vec::new();
    demand(&mut signs, '[');
    if !taken(&mut signs, ']') {
        loop {
            rows.push(json_object(&mut signs));
            if !taken(&mut signs, ',') {
                break;
            }
        }
        demand(&mut signs, ']');
    }
    assert_eq!(signs.collect::<String>(), "\n");
    rows
}

fn json_object(signs: &mut Peekable<Chars>) -> Fields {
    let mut fields = Fields::new();
    demand(signs, '{');
    loop {
        let name = json_value(signs).expect("a name");
        demand(signs, ':');
        assert_eq!(fields.insert(name, json_value(signs)), None);
        if !taken(signs, ',') {
            demand(signs, '}');
            return fields;
        }
    }
}

fn json_value(signs: &mut Peekable<Chars>) -> Option<String> {
    if taken(signs, '"') {
        return Some(json_string(signs));
    }
    let mut word = String::new();
    while let Some(sign) = signs.next_if(char::is_ascii_alphanumeric) {
        word.push(sign);
    }
    if word == "null" {
        return None;
    }
    assert!(word.parse::<u32>().is_ok(), "'{word}' is no number");
    Some(word)
}

/// The text to its closing quote.
fn json_string(signs: &mut Peekable<Chars>) -> String {
    let mut text = String::new();
    loop {
        match signs.next().expect("a quote that ends the text") {
            '"' => return text,
            '\\' => match signs.next() {
                Some('u') => {
                    let digits: String = signs.by_ref().take(4).collect();
                    let number = u32::from_str_radix(&digits, 16).expect("four digits");
                    text.push(char::from_u32(number).expect("a sign"));
                }
                Some(sign @ ('"' | '\\')) => text.push(sign),
                other => panic!("{other:?} behind a backslash"),
            },
            sign => {
                assert!(!sign.is_control());
                text.push(sign);
            }
        }
    }
}

/// Takes a sign behind blanks, if it is there.
fn taken(signs: &mut Peekable<Chars>, sign: char) -> bool {
    while signs.next_if(|next| next.is_ascii_whitespace()).is_some() {}
    signs.next_if_eq(&sign).is_some()
}

fn demand(signs: &mut Peekable<Chars>, sign: char) {
    assert!(taken(signs, sign), "no '{sign}'");
}

#[test]
fn the_parsers() {
    let rows = csv("a,b\r\n\"x,\"\"y\"\"\",\r\n1,\"2\"\r\n");
    let text = |text: &str| Some(text.to_string());
    assert_eq!(rows[0]["a"], text("x,\"y\""));
    assert_eq!((&rows[0]["b"], &rows[1]["b"]), (&None, &text("2")));
    let rows = json("[\n{\"a\": \"\\u001b\\\"\", \"b\": null}, {\"b\":7}]\n");
    assert_eq!(rows[0]["a"], text("\u{1B}\""));
    assert_eq!((&rows[0]["b"], &rows[1]["b"]), (&None, &text("7")));
    assert_eq!(json("[\n]\n"), []);
}
