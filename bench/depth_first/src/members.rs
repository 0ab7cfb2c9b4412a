//! The members of a line: a JSON object whose values are texts, whole numbers, `true`, `false` or `null`.
//!
//! Texts with escapes and values of other forms are refused, since the histories that are compared have
//! none.
use std::fmt;

#[derive(Clone, Copy, Debug, PartialEq)]
pub enum Member<'a> {
    Null,
    Truth(bool),
    Number(i64),
    Text(&'a str),
}

/// Why a line's members can't be read.
#[derive(Debug, PartialEq)]
pub enum Form {
    NoObject,
    Escape,
    Value,
}

impl fmt::Display for Form {
    fn fmt(&self, to: &mut fmt::Formatter) -> fmt::Result {
        to.write_str(match self {
            Self::NoObject => "not one JSON object",
            Self::Escape => {
                "a text has an escape or a control character, which this program doesn't read"
            }
            Self::Value => {
                "a value is neither a text, a whole number of 64 bits, true, false nor null"
            }
        })
    }
}

/// The members of an object by name.
pub struct Members<'a>(Vec<(&'a str, Member<'a>)>);

impl<'a> Members<'a> {
    /// The last member of that name, which is the one that counts.
    pub fn get(&self, name: &str) -> Option<Member<'a>> {
        let found = self.0.iter().rev().find(|member| member.0 == name);
        found.map(|member| member.1)
    }
}

/// What is left of a line.
struct Rest<'a>(&'a str);

impl<'a> Rest<'a> {
    fn skip_spaces(&mut self) {
        self.0 = self.0.trim_start_matches([' ', '\t', '\r']);
    }

    /// Whether the next symbol is this one, which is then taken.
    fn takes(&mut self, symbol: char) -> bool {
        self.skip_spaces();
        let after = self.0.strip_prefix(symbol);
        self.0 = after.unwrap_or(self.0);
        after.is_some()
    }

    fn expect(&mut self, symbol: char) -> Result<(), Form> {
        self.takes(symbol).then_some(()).ok_or(Form::NoObject)
    }

    /// The text behind its opening quotation mark.
    fn text(&mut self) -> Result<&'a str, Form> {
        let (text, after) = self.0.split_once('"').ok_or(Form::NoObject)?;
        if text.contains(|symbol| symbol == '\\' || symbol < ' ') {
            return Err(Form::Escape);
        }
        self.0 = after;
        Ok(text)
    }

    fn value(&mut self) -> Result<Member<'a>, Form> {
        if self.takes('"') {
            return self.text().map(Member::Text);
        }
        let end = self.0.find([',', '}', ' ', '\t', '\r']);
        let (word, after) = self.0.split_at(end.unwrap_or(self.0.len()));
        self.0 = after;
        match word {
            "null" => Ok(Member::Null),
            "true" => Ok(Member::Truth(true)),
            "false" => Ok(Member::Truth(false)),
            _ => whole_number(word).map(Member::Number).ok_or(Form::Value),
        }
    }
}

fn whole_number(word: &str) -> Option<i64> {
    let digits = word.strip_prefix('-').unwrap_or(word);
    let is_plain = digits.bytes().all(|digit| digit.is_ascii_digit());
    let leads_with_zero = digits.len() > 1 && digits.starts_with('0');
    (is_plain && !leads_with_zero).then(|| word.parse().ok())?
}

pub fn read_members(line: &str) -> Result<Members<'_>, Form> {
    let mut rest = Rest(line);
    let mut members = Vec::new();
    rest.expect('{')?;
    if !rest.takes('}') {
        loop {
            rest.expect('"')?;
            let name = rest.text()?;
            rest.expect(':')?;
            members.push((name, rest.value()?));
            if rest.takes('}') {
                break;
            }
            rest.expect(',')?;
        }
    }
    rest.skip_spaces();
    if rest.0.is_empty() {
        Ok(Members(members))
    } else {
        Err(Form::NoObject)
    }
}

#[cfg(test)]
mod tests {
    use super::{read_members, Form, Member};

    #[test]
    fn reads_each_form_of_a_value() {
        let line = r#" {"a":"x y", "b" : -17 ,"c":null,"d":true,"e":false,"a":0}"#;
        let members = read_members(line).unwrap();
        let rows = [
            ("a", Some(Member::Number(0))),
            ("b", Some(Member::Number(-17))),
            ("c", Some(Member::Null)),
            ("d", Some(Member::Truth(true))),
            ("e", Some(Member::Truth(false))),
            ("f", None),
        ];
        for (name, expected) in rows {
            assert_eq!(members.get(name), expected, "{name}");
        }
    }

    #[test]
    fn refuses_what_it_does_not_know() {
        let rows = [
            ("", Form::NoObject),
            ("{", Form::NoObject),
            (r#"{"a":1"#, Form::NoObject),
            (r#"{"a":1}}"#, Form::NoObject),
            (r#"{"a":1,}"#, Form::NoObject),
            (r#"{"a" 1}"#, Form::NoObject),
            (r#"{"a":"1}"#, Form::NoObject),
            (r#"{"a":"\u0031"}"#, Form::Escape),
            (r#"{"a":1.0}"#, Form::Value),
            (r#"{"a":01}"#, Form::Value),
            (r#"{"a":+1}"#, Form::Value),
            (r#"{"a":}"#, Form::Value),
            (r#"{"a":[1]}"#, Form::Value),
            (r#"{"a":9223372036854775808}"#, Form::Value),
        ];
        for (line, expected) in rows {
            assert_eq!(read_members(line).err(), Some(expected), "{line}");
        }
        assert!(read_members("{}").is_ok());
    }
}
