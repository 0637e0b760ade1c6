//! JSON of RFC 8259, one value, read whole: the judge of whether the tool's is any. A number is kept as it is written, and
//! an object's names in the order of the text.

#[derive(Clone, Debug, PartialEq, Eq)]
pub enum Json {
    Null,
    Bool(bool),
    Number(String),
    Text(String),
    List(Vec<Json>),
    Object(Vec<(String, Json)>),
}

/// How deep lists and objects may stand in each other.
const DEEPEST: usize = 16;

pub fn read(text: &str) -> Result<Json, String> {
    let mut rest = Rest {
        text,
        at: 0,
        deep: 0,
    };
    let value = rest.value()?;
    rest.blanks();
    if rest.at < text.len() {
        return Err(rest.wrong("its end"));
    }
    Ok(value)
}

struct Rest<'a> {
    text: &'a str,
    at: usize,
    deep: usize,
}

impl Rest<'_> {
    fn wrong(&self, lacks: &str) -> String {
        format!("no JSON: at byte {} it lacks {lacks}", self.at)
    }

    fn next(&self) -> u8 {
        *self.text.as_bytes().get(self.at).unwrap_or(&0)
    }

    fn blanks(&mut self) {
        while matches!(self.next(), b' ' | b'\t' | b'\n' | b'\r') {
            self.at += 1;
        }
    }

    /// Whether this byte is next; it is taken then.
    fn takes(&mut self, byte: u8) -> bool {
        let is = self.next() == byte && self.at < self.text.len();
        self.at += usize::from(is);
        is
    }

    fn value(&mut self) -> Result<Json, String> {
        self.blanks();
        match self.next() {
            b'{' | b'[' if self.deep == DEEPEST => Err(self.wrong("an end of what stands in it")),
            b'{' => {
                let pairs = self.between(b'{', b'}', Self::pair)?;
                let twice = |at: usize| pairs[..at].iter().any(|pair| pair.0 == pairs[at].0);
                match (0..pairs.len()).find(|&at| twice(at)) {
                    Some(at) => Err(format!("no JSON: {:?} stands twice", pairs[at].0)),
                    None => Ok(Json::Object(pairs)),
                }
            }
            b'[' => Ok(Json::List(self.between(b'[', b']', Self::value)?)),
            b'"' => Ok(Json::Text(self.string()?)),
            b'-' | b'0'..=b'9' => Ok(Json::Number(self.number()?)),
            _ => self.word(),
        }
    }

    fn word(&mut self) -> Result<Json, String> {
        let words = [
            ("null", Json::Null),
            ("true", Json::Bool(true)),
            ("false", Json::Bool(false)),
        ];
        let rest = &self.text[self.at..];
        let found = words.into_iter().find(|(word, _)| rest.starts_with(word));
        let (word, value) = found.ok_or_else(|| self.wrong("a value"))?;
        self.at += word.len();
        Ok(value)
    }

    /// What stands between two brackets, with commas.
    fn between<T>(
        &mut self,
        open: u8,
        close: u8,
        one: fn(&mut Self) -> Result<T, String>,
    ) -> Result<Vec<T>, String> {
        let mut all = Vec::new();
        self.takes(open);
        self.deep += 1;
        self.blanks();
        while !self.takes(close) {
            if !all.is_empty() && !self.takes(b',') {
                return Err(self.wrong("a comma or the end of a list or object"));
            }
            all.push(one(self)?);
            self.blanks();
        }
        self.deep -= 1;
        Ok(all)
    }

    fn pair(&mut self) -> Result<(String, Json), String> {
        self.blanks();
        let name = self.string()?;
        self.blanks();
        if !self.takes(b':') {
            return Err(self.wrong("a colon"));
        }
        Ok((name, self.value()?))
    }

    /// -?(0|[1-9][0-9]*)(\.[0-9]+)?([eE][+-]?[0-9]+)?
    fn number(&mut self) -> Result<String, String> {
        let begin = self.at;
        self.takes(b'-');
        if !self.takes(b'0') {
            self.digits()?;
        }
        if self.takes(b'.') {
            self.digits()?;
        }
        if self.takes(b'e') || self.takes(b'E') {
            let _ = self.takes(b'+') || self.takes(b'-');
            self.digits()?;
        }
        Ok(self.text[begin..self.at].into())
    }

    fn digits(&mut self) -> Result<(), String> {
        let begin = self.at;
        while self.next().is_ascii_digit() {
            self.at += 1;
        }
        (self.at > begin)
            .then_some(())
            .ok_or_else(|| self.wrong("a digit"))
    }

    fn string(&mut self) -> Result<String, String> {
        if !self.takes(b'"') {
            return Err(self.wrong("a string"));
        }
        let mut string = String::new();
        loop {
            let next = self.text[self.at..].chars().next();
            let next = next.filter(|&c| c >= ' ');
            let c = next.ok_or_else(|| self.wrong("the end of a string"))?;
            self.at += c.len_utf8();
            match c {
                '"' => return Ok(string),
                '\\' => string.push(self.escaped()?),
                c => string.push(c),
            }
        }
    }

    /// What stands behind a backslash. A half of a pair of \u, which the tool has no use for, is refused.
    fn escaped(&mut self) -> Result<char, String> {
        let byte = self.next();
        self.at += usize::from(byte.is_ascii() && self.at < self.text.len());
        match byte {
            b'"' | b'\\' | b'/' => Ok(char::from(byte)),
            b'b' => Ok('\u{8}'),
            b'f' => Ok('\u{c}'),
            b'n' => Ok('\n'),
            b'r' => Ok('\r'),
            b't' => Ok('\t'),
            b'u' => {
                let digits = self.text.get(self.at..self.at + 4).unwrap_or("");
                let is_hex = digits.bytes().all(|digit| digit.is_ascii_hexdigit());
                let code = u32::from_str_radix(digits, 16).ok().filter(|_| is_hex);
                let c = code.and_then(char::from_u32);
                self.at += digits.len();
                c.ok_or_else(|| self.wrong("a character behind \\u"))
            }
            _ => Err(self.wrong("an escape")),
        }
    }
}

#[cfg(test)]
mod tests {
    use super::{Json, read};

    fn number(text: &str) -> Json {
        Json::Number(text.into())
    }

    #[test]
    fn values() {
        let pairs = vec![
            (
                "a".into(),
                Json::List(vec![number("-1.50e-05"), Json::Null]),
            ),
            ("b".into(), Json::Text("\"\\ é\u{fffd}\n".into())),
            ("c".into(), Json::Bool(true)),
        ];
        let text = r#" {"a":[-1.50e-05, null],"b":"\"\\ é\ufffd\n","c":true} "#;
        assert_eq!(read(text), Ok(Json::Object(pairs)));
        assert_eq!(read("[]"), Ok(Json::List(vec![])));
        assert_eq!(read("0"), Ok(number("0")));
    }

    #[test]
    fn what_is_none() {
        let none = [
            "",
            "nan",
            "inf",
            "-inf",
            "1.",
            ".5",
            "01",
            "+1",
            "0x1",
            "1e",
            "--1",
            "[1,]",
            "[1 2]",
            "[,1]",
            "[1",
            "{\"a\"}",
            "{\"a\":1,}",
            "{a:1}",
            "{\"a\":1,\"a\":2}",
            "\"",
            "\"\\x\"",
            "\"\\ud800\"",
            "\"\\u+123\"",
            "\"\n\"",
            "1 2",
            "{} {}",
            "tru",
            "1\u{0}",
        ];
        for text in none {
            assert!(read(text).is_err(), "{text:?} is taken");
        }
        assert!(read(&"[".repeat(100_000)).is_err());
    }
}
