//! A small reader of JSON: it accepts a whole text of JSON or nothing.

/// A value. Numbers are whole ones, as the command prints them.
#[derive(Clone, Debug, PartialEq)]
pub enum Json {
    Null,
    Bool(bool),
    Number(u64),
    Text(String),
    List(Vec<Json>),
    Object(Vec<(String, Json)>),
}

impl Json {
    /// The value of a name.
    pub fn get(&self, name: &str) -> &Json {
        match self {
            Json::Object(fields) => &fields.iter().find(|field| field.0 == name).expect(name).1,
            other => panic!("{other:?} has no {name}"),
        }
    }

    pub fn number(&self) -> u64 {
        match self {
            Json::Number(number) => *number,
            other => panic!("{other:?} is no number"),
        }
    }

    pub fn text(&self) -> &str {
        match self {
            Json::Text(text) => text,
            other => panic!("{other:?} is no text"),
        }
    }

    pub fn list(&self) -> &[Json] {
        match self {
            Json::List(list) => list,
            other => panic!("{other:?} is no list"),
        }
    }
}

struct Reader<'a> {
    rest: &'a str,
}

impl Reader<'_> {
    fn skip_blanks(&mut self) {
        self.rest = self.rest.trim_start_matches([' ', '\n', '\r', '\t']);
    }

    fn take(&mut self, front: &str) -> bool {
        match self.rest.strip_prefix(front) {
            Some(rest) => {
                self.rest = rest;
                true
            }
            None => false,
        }
    }

    /// Items between brackets, with commas between them.
    fn items<T>(&mut self, end: &str, item: fn(&mut Self) -> T) -> Vec<T> {
        let mut items = Vec::new();
        self.skip_blanks();
        if self.take(end) {
            return items;
        }
        loop {
            items.push(item(self));
            self.skip_blanks();
            if self.take(end) {
                return items;
            }
            assert!(self.take(","), "a comma before {:.40}", self.rest);
        }
    }

    fn field(&mut self) -> (String, Json) {
        self.skip_blanks();
        assert!(self.take("\""), "a name at {:.40}", self.rest);
        let name = self.string();
        self.skip_blanks();
        assert!(self.take(":"), "a colon after {name}");
        (name, self.value())
    }

    fn unit(&mut self) -> u16 {
        let (digits, rest) = self.rest.split_at(4);
        self.rest = rest;
        u16::from_str_radix(digits, 16).expect("four hex digits")
    }

    /// What follows a backslash.
    fn escaped(&mut self) -> char {
        let c = self.rest.chars().next().expect("an escape");
        self.rest = &self.rest[c.len_utf8()..];
        match c {
            '"' | '\\' | '/' => c,
            'n' => '\n',
            'r' => '\r',
            't' => '\t',
            'u' => {
                let first = self.unit();
                let is_pair = (0xD800..0xDC00).contains(&first) && self.take("\\u");
                let units = if is_pair { vec![first, self.unit()] } else { vec![first] };
                String::from_utf16(&units).expect("no lone surrogate").chars().next().unwrap()
            }
            other => panic!("escape {other}"),
        }
    }

    /// A text whose opening quotes were taken.
    fn string(&mut self) -> String {
        let mut text = String::new();
        loop {
            let c = self.rest.chars().next().expect("closing quotes");
            self.rest = &self.rest[c.len_utf8()..];
            match c {
                '"' => return text,
                '\\' => text.push(self.escaped()),
                c => {
                    assert!(c >= ' ', "a control in a text");
                    text.push(c);
                }
            }
        }
    }

    fn value(&mut self) -> Json {
        self.skip_blanks();
        if self.take("null") {
            Json::Null
        } else if self.take("true") {
            Json::Bool(true)
        } else if self.take("false") {
            Json::Bool(false)
        } else if self.take("\"") {
            Json::Text(self.string())
        } else if self.take("[") {
            Json::List(self.items("]", Self::value))
        } else if self.take("{") {
            Json::Object(self.items("}", Self::field))
        } else {
            let is_digit = |c: char| c.is_ascii_digit();
            let past = self.rest.find(|c| !is_digit(c)).unwrap_or(self.rest.len());
            let (digits, rest) = self.rest.split_at(past);
            assert!(digits == "0" || !digits.starts_with('0'), "a leading zero");
            self.rest = rest;
            Json::Number(digits.parse().expect("a number"))
        }
    }
}

/// Reads a whole text of JSON.
pub fn read(text: &str) -> Json {
    let mut reader = Reader { rest: text };
    let value = reader.value();
    reader.skip_blanks();
    assert_eq!(reader.rest, "", "nothing after the value");
    value
}
