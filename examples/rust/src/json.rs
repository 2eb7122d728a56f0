//! Reads the JSON that the library writes.

/// A JSON value without the numbers that the library does not write.
#[derive(Debug, PartialEq, Eq)]
pub enum Value {
    Null,
    Number(usize),
    Text(String),
    List(Vec<Value>),
    Object(Vec<(String, Value)>),
}

impl Value {
    /// The member of an object with this name. `Null` if there is none.
    pub fn take(&mut self, name: &str) -> Value {
        let Value::Object(members) = self else { return Value::Null };
        let found = members.iter().position(|(found, _)| found == name);
        found.map_or(Value::Null, |index| members.swap_remove(index).1)
    }

    /// The number; 0 for any other value.
    pub fn into_number(self) -> usize {
        if let Value::Number(number) = self {
            number
        } else {
            0
        }
    }

    /// The text; an empty one for any other value.
    pub fn into_text(self) -> String {
        if let Value::Text(text) = self {
            text
        } else {
            String::new()
        }
    }

    /// The values of a list; none for any other value.
    pub fn into_list(self) -> Vec<Value> {
        if let Value::List(values) = self {
            values
        } else {
            Vec::new()
        }
    }
}

/// The value that a text is. `None` if it is not the text of one value.
pub fn value_of(text: &str) -> Option<Value> {
    let mut reader = Reader(text);
    let value = reader.value()?;
    reader.0.is_empty().then_some(value)
}

/// A text that is read from the front.
struct Reader<'a>(&'a str);

impl Reader<'_> {
    /// Reads this text, if it comes next.
    fn expect(&mut self, front: &str) -> Option<()> {
        self.0 = self.0.strip_prefix(front)?;
        Some(())
    }

    fn value(&mut self) -> Option<Value> {
        match self.0.chars().next()? {
            '"' => self.text().map(Value::Text),
            '[' => self.separated("[", "]", Self::value).map(Value::List),
            '{' => self.separated("{", "}", Self::member).map(Value::Object),
            'n' => self.expect("null").map(|()| Value::Null),
            _ => self.number().map(Value::Number),
        }
    }

    fn number(&mut self) -> Option<usize> {
        let end = self.0.find(|character: char| !character.is_ascii_digit()).unwrap_or(self.0.len());
        let (digits, rest) = self.0.split_at(end);
        self.0 = rest;
        digits.parse().ok()
    }

    fn member(&mut self) -> Option<(String, Value)> {
        let name = self.text()?;
        self.expect(":")?;
        Some((name, self.value()?))
    }

    /// Reads what is between two brackets, with commas in between.
    fn separated<T>(&mut self, open: &str, close: &str, read: fn(&mut Self) -> Option<T>) -> Option<Vec<T>> {
        self.expect(open)?;
        let mut values = Vec::new();
        while self.expect(close).is_none() {
            if !values.is_empty() {
                self.expect(",")?;
            }
            values.push(read(self)?);
        }
        Some(values)
    }

    fn text(&mut self) -> Option<String> {
        self.expect("\"")?;
        let mut text = String::new();
        loop {
            let mut characters = self.0.chars();
            let character = characters.next()?;
            self.0 = characters.as_str();
            match character {
                '"' => return Some(text),
                '\\' => text.push(self.escape()?),
                _ => text.push(character),
            }
        }
    }

    /// Reads an escape after its backslash.
    fn escape(&mut self) -> Option<char> {
        let mut characters = self.0.chars();
        let character = characters.next()?;
        self.0 = characters.as_str();
        match character {
            'b' => Some('\u{8}'),
            'f' => Some('\u{C}'),
            'n' => Some('\n'),
            'r' => Some('\r'),
            't' => Some('\t'),
            'u' => {
                let digits = self.0.get(..4)?;
                self.0 = &self.0[4..];
                char::from_u32(u32::from_str_radix(digits, 16).ok()?)
            }
            _ => Some(character),
        }
    }
}

#[cfg(test)]
mod tests {
    use super::{value_of, Value};

    #[test]
    fn values_are_read() {
        let mut value = value_of(r#"{"a":[12,null,"é\"\\\n\u00E9"],"b":{},"c":[]}"#).expect("a value");
        let text = Value::Text("é\"\\\né".to_owned());
        assert_eq!(value.take("a").into_list(), [Value::Number(12), Value::Null, text]);
        assert_eq!((value.take("b"), value.take("c")), (Value::Object(Vec::new()), Value::List(Vec::new())));
        assert_eq!(value.take("d"), Value::Null);
    }

    #[test]
    fn other_texts_are_no_value() {
        for text in ["", "[", "[1", "[1 2]", "{\"a\"}", "\"a", "\"\\u12", "-", "1]", "nul"] {
            assert_eq!(value_of(text), None, "{text}");
        }
    }
}
