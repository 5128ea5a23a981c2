//! JSON as the vectors of document 02 use it: whole numbers, strings without escapes, lists and
//! records. Anything else ends the program.

#[derive(Clone, Debug, PartialEq, Eq)]
pub enum Json {
    Number(i64),
    Text(String),
    List(Vec<Json>),
    Record(Vec<(String, Json)>),
}

impl Json {
    /// The value of a whole line.
    pub fn read(line: &str) -> Json {
        let mut rest = line.trim();
        let value = value(&mut rest);
        assert!(rest.is_empty(), "after the value: {rest}");
        value
    }

    pub fn get(&self, key: &str) -> Option<&Json> {
        match self {
            Json::Record(fields) => fields.iter().find(|field| field.0 == key).map(|f| &f.1),
            _ => None,
        }
    }

    /// The field of a record that must have it.
    pub fn at(&self, key: &str) -> &Json {
        self.get(key).unwrap_or_else(|| panic!("{key}: {self:?}"))
    }

    pub fn number(&self) -> i64 {
        match self {
            Json::Number(number) => *number,
            _ => panic!("no number: {self:?}"),
        }
    }

    pub fn text(&self) -> &str {
        match self {
            Json::Text(text) => text,
            _ => panic!("no string: {self:?}"),
        }
    }

    pub fn list(&self) -> &[Json] {
        match self {
            Json::List(list) => list,
            _ => panic!("no list: {self:?}"),
        }
    }

    /// The numbers of a list of numbers.
    pub fn numbers(&self) -> Vec<i64> {
        self.list().iter().map(Json::number).collect()
    }
}

/// Takes this sign, with spaces before it, off the text if it stands there.
fn takes(rest: &mut &str, sign: char) -> bool {
    match rest.trim_start().strip_prefix(sign) {
        Some(left) => {
            *rest = left;
            true
        }
        None => false,
    }
}

fn value(rest: &mut &str) -> Json {
    if takes(rest, '[') {
        return Json::List(until(rest, ']', value));
    }
    if takes(rest, '{') {
        return Json::Record(until(rest, '}', field));
    }
    if takes(rest, '"') {
        return Json::Text(quoted(rest));
    }
    *rest = rest.trim_start();
    let digit = |c: char| c == '-' || c.is_ascii_digit();
    let end = rest.find(|c| !digit(c)).unwrap_or(rest.len());
    let (digits, left) = rest.split_at(end);
    *rest = left;
    Json::Number(digits.parse().expect("a number"))
}

fn field(rest: &mut &str) -> (String, Json) {
    assert!(takes(rest, '"'), "no key: {rest}");
    let key = quoted(rest);
    assert!(takes(rest, ':'), "no colon: {rest}");
    (key, value(rest))
}

/// What stands before the next quotation mark.
fn quoted(rest: &mut &str) -> String {
    let (text, left) = rest.split_once('"').expect("a closing quotation mark");
    *rest = left;
    text.to_string()
}

/// The parts up to the closing sign, with commas between them.
fn until<T>(rest: &mut &str, end: char, part: impl Fn(&mut &str) -> T) -> Vec<T> {
    let mut parts = vec![];
    while !takes(rest, end) {
        assert!(parts.is_empty() || takes(rest, ','), "no comma: {rest}");
        parts.push(part(rest));
    }
    parts
}
