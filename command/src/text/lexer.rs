//! The tokens of a line.

use std::borrow::Cow;

use super::names::{RESERVED, begins, continues, quoted};

/// What a token is.
#[derive(Clone, Debug, PartialEq, Eq)]
pub(super) enum Lexeme<'a> {
    /// A name, without its quotes.
    Name(Cow<'a, str>),
    /// A reserved word or a sign, as it is written.
    Fixed(&'static str),
    /// What is no token, with the reason.
    Wrong(String),
    /// The end of the line, or where its comment begins.
    End,
}

/// A token and the column of its first character, from 1.
#[derive(Clone, Debug, PartialEq, Eq)]
pub(super) struct Token<'a> {
    pub(super) lexeme: Lexeme<'a>,
    pub(super) column: usize,
}

/// The tokens of a line, the end last.
pub(super) fn tokens(line: &str) -> Vec<Token<'_>> {
    let mut lexer = Lexer {
        rest: line,
        column: 1,
    };
    let mut tokens = Vec::with_capacity(16);
    let mut end = 1;
    while let Some(token) = lexer.token() {
        tokens.push(token);
        end = lexer.column;
    }
    tokens.push(Token {
        lexeme: Lexeme::End,
        column: end,
    });
    tokens
}

/// The column of a line's comment.
pub(super) fn comment(line: &str) -> Option<usize> {
    let mut lexer = Lexer {
        rest: line,
        column: 1,
    };
    while lexer.token().is_some() {}
    (!lexer.rest.is_empty()).then_some(lexer.column)
}

/// A character in a message.
fn character(c: char) -> String {
    let code = u32::from(c);
    if c.is_control() || c.is_whitespace() {
        format!("U+{code:04X}")
    } else if c.is_ascii() {
        format!("`{c}`")
    } else {
        format!("`{c}` (U+{code:04X})")
    }
}

/// The characters that are left, and the next one's column.
struct Lexer<'a> {
    rest: &'a str,
    column: usize,
}

impl<'a> Lexer<'a> {
    /// The next character, if it fits.
    fn take(&mut self, fits: impl Fn(char) -> bool) -> Option<char> {
        let next = self.rest.chars().next().filter(|&c| fits(c))?;
        self.rest = &self.rest[next.len_utf8()..];
        self.column += 1;
        Some(next)
    }

    /// The next token; none at the end of the line and at a comment.
    fn token(&mut self) -> Option<Token<'a>> {
        while self.take(|c| c == ' ' || c == '\t').is_some() {}
        let column = self.column;
        let lexeme = match self.rest.chars().next()? {
            '#' => return None,
            '"' => return Some(self.quoted()),
            c if continues(c) => self.word(),
            _ => self.sign(),
        };
        Some(Token { lexeme, column })
    }

    /// A name without quotes, or a reserved word.
    fn word(&mut self) -> Lexeme<'a> {
        let begin = self.rest;
        while self.take(continues).is_some() {}
        let word = &begin[..begin.len() - self.rest.len()];
        if !word.starts_with(begins) {
            let quotes = quoted(word);
            return Lexeme::Wrong(format!(
                "`{word}` does not begin with a letter; as a name it is quoted: `{quotes}`"
            ));
        }
        match RESERVED.into_iter().find(|&reserved| reserved == word) {
            Some(reserved) => Lexeme::Fixed(reserved),
            None => Lexeme::Name(word.into()),
        }
    }

    /// A sign of one character.
    fn sign(&mut self) -> Lexeme<'a> {
        match self.take(|_| true) {
            Some(',') => Lexeme::Fixed(","),
            Some('<') => Lexeme::Fixed("<"),
            Some('=') => Lexeme::Fixed("="),
            Some('(') => Lexeme::Fixed("("),
            Some(')') => Lexeme::Fixed(")"),
            Some(c) => Lexeme::Wrong(format!("unexpected character {}", character(c))),
            None => Lexeme::End,
        }
    }

    /// A name in quotes. What is wrong in it stands at its own column.
    fn quoted(&mut self) -> Token<'a> {
        let begin = self.column;
        let wrong = |column: usize, message: &str| Token {
            lexeme: Lexeme::Wrong(message.to_owned()),
            column,
        };
        self.take(|_| true);
        let mut name = String::new();
        let mut fault = None;
        while self.take(|c| c == '"').is_none() {
            let column = self.column;
            match self.quoted_character() {
                None => return wrong(begin, "the quote is not closed"),
                Some(Ok(c)) => name.push(c),
                Some(Err(message)) => {
                    fault.get_or_insert(wrong(column, &message));
                }
            }
        }
        match fault {
            Some(fault) => fault,
            None if name.is_empty() => wrong(begin, "a name is not empty"),
            None => Token {
                lexeme: Lexeme::Name(name.into()),
                column: begin,
            },
        }
    }

    /// A character of a name in quotes, or why it cannot stand there; none at the end of the line.
    fn quoted_character(&mut self) -> Option<Result<char, String>> {
        let c = self.take(|_| true)?;
        Some(if c == '\\' {
            let escaped = self.take(|c| c == '"' || c == '\\');
            escaped.ok_or_else(|| r#"only `\"` and `\\` are escapes"#.to_owned())
        } else if c.is_control() {
            let shown = character(c);
            Err(format!("a name has no control character: {shown}"))
        } else {
            Ok(c)
        })
    }
}
