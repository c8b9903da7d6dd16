//! A small JSON reader: enough for the vectors. Numbers are whole and not
//! negative.

#[derive(Clone, Debug, PartialEq)]
pub enum Json {
    Null,
    Boolean(bool),
    Number(usize),
    Text(String),
    List(Vec<Json>),
    Object(Vec<(String, Json)>),
}

impl Json {
    pub fn parse(text: &str) -> Json {
        let mut reader = Reader {
            bytes: text.as_bytes(),
            at: 0,
        };
        let value = reader.value();
        reader.skip_space();
        assert_eq!(reader.at, text.len(), "text after the value");
        value
    }

    /// The field of that name, if the object has it.
    pub fn get(&self, name: &str) -> Option<&Json> {
        match self {
            Json::Object(fields) => fields.iter().find(|(n, _)| n == name).map(|(_, v)| v),
            other => panic!("not an object: {other:?}"),
        }
    }

    pub fn number(&self) -> usize {
        match self {
            Json::Number(number) => *number,
            other => panic!("not a number: {other:?}"),
        }
    }

    pub fn text(&self) -> &str {
        match self {
            Json::Text(text) => text,
            other => panic!("not a string: {other:?}"),
        }
    }

    pub fn list(&self) -> &[Json] {
        match self {
            Json::List(items) => items,
            other => panic!("not an array: {other:?}"),
        }
    }

    /// A string of hexadecimal digits as bytes.
    pub fn hex(&self) -> Vec<u8> {
        let digits = self.text();
        assert_eq!(digits.len() % 2, 0, "an odd number of hexadecimal digits");
        (0..digits.len())
            .step_by(2)
            .map(|i| u8::from_str_radix(&digits[i..i + 2], 16).expect("hexadecimal digits"))
            .collect()
    }
}

struct Reader<'a> {
    bytes: &'a [u8],
    at: usize,
}

impl Reader<'_> {
    fn skip_space(&mut self) {
        while self.at < self.bytes.len() && self.bytes[self.at].is_ascii_whitespace() {
            self.at += 1;
        }
    }

    /// The next byte that is no space, left in place.
    fn peek(&mut self) -> u8 {
        self.skip_space();
        *self.bytes.get(self.at).expect("more text")
    }

    fn expect(&mut self, word: &str) {
        self.skip_space();
        assert!(
            self.bytes[self.at..].starts_with(word.as_bytes()),
            "{word:?} at {}",
            self.at
        );
        self.at += word.len();
    }

    fn value(&mut self) -> Json {
        match self.peek() {
            b'{' => self.object(),
            b'[' => self.array(),
            b'"' => Json::Text(self.string()),
            b't' => self.literal("true", Json::Boolean(true)),
            b'f' => self.literal("false", Json::Boolean(false)),
            b'n' => self.literal("null", Json::Null),
            _ => self.whole_number(),
        }
    }

    fn literal(&mut self, word: &str, value: Json) -> Json {
        self.expect(word);
        value
    }

    fn whole_number(&mut self) -> Json {
        let start = self.at;
        while self.at < self.bytes.len() && self.bytes[self.at].is_ascii_digit() {
            self.at += 1;
        }
        let digits = std::str::from_utf8(&self.bytes[start..self.at]).expect("digits");
        Json::Number(digits.parse().expect("a whole number"))
    }

    fn string(&mut self) -> String {
        self.expect("\"");
        let mut bytes = vec![];
        loop {
            let byte = self.bytes[self.at];
            self.at += 1;
            match byte {
                b'"' => return String::from_utf8(bytes).expect("UTF-8"),
                b'\\' => {
                    let escaped = self.escape();
                    bytes.extend(escaped.to_string().as_bytes());
                }
                _ => bytes.push(byte),
            }
        }
    }

    /// The character of an escape, after its backslash.
    fn escape(&mut self) -> char {
        let byte = self.bytes[self.at];
        self.at += 1;
        match byte {
            b'n' => '\n',
            b't' => '\t',
            b'r' => '\r',
            b'b' => '\u{8}',
            b'f' => '\u{c}',
            b'u' => {
                let digits =
                    std::str::from_utf8(&self.bytes[self.at..self.at + 4]).expect("digits");
                self.at += 4;
                let code = u32::from_str_radix(digits, 16).expect("hexadecimal digits");
                char::from_u32(code).expect("no surrogate")
            }
            _ => char::from(byte),
        }
    }

    fn array(&mut self) -> Json {
        self.expect("[");
        let mut items = vec![];
        while self.peek() != b']' {
            items.push(self.value());
            if self.peek() == b',' {
                self.at += 1;
            }
        }
        self.expect("]");
        Json::List(items)
    }

    fn object(&mut self) -> Json {
        self.expect("{");
        let mut fields = vec![];
        while self.peek() != b'}' {
            let name = self.string();
            self.expect(":");
            fields.push((name, self.value()));
            if self.peek() == b',' {
                self.at += 1;
            }
        }
        self.expect("}");
        Json::Object(fields)
    }
}

#[test]
fn reads_each_kind_of_value() {
    let value = Json::parse(r#" {"a": [1, "x\n\u0041", true, null], "b": {}, "c": "00ff"} "#);
    let a = value.get("a").unwrap().list();
    assert_eq!(a[0].number(), 1);
    assert_eq!(a[1].text(), "x\nA");
    assert_eq!(a[2..], [Json::Boolean(true), Json::Null]);
    assert_eq!(value.get("b"), Some(&Json::Object(vec![])));
    assert_eq!(value.get("c").unwrap().hex(), [0, 255]);
    assert_eq!(value.get("d"), None);
}
