//! The tokens of a line, read one by one, and the expressions among them.
//!
//! A syntax error ends the line, but for what is wrong in any case. An undeclared name, or one of
//! the wrong sort, is told and read as something that fits. Nothing here recurses.

use girvotal::Role;

use super::expression::{Expression, Node};
use super::faults::{Faults, Problem};
use super::lexer::{Lexeme, Token, tokens};
use super::names::quoted;
use super::scope::{Meaning, Scope};

/// How deep parentheses nest. No text of 512 records needs more.
const NESTING: usize = 512;

/// What is under way around the next term.
enum Pending {
    Parenthesis,
    Existential(Role),
    /// With its left part.
    Conjunction(usize),
}

/// The tokens of a line, read up to one of them.
pub(super) struct Parser<'a> {
    pub(super) tokens: Vec<Token<'a>>,
    pub(super) at: usize,
    /// How many parentheses are open.
    depth: usize,
    line: usize,
    pub(super) scope: &'a Scope,
    faults: &'a mut Faults,
}

/// A syntax error was told.
pub(super) struct Ended;

pub(super) type Parsed<T> = Result<T, Ended>;

impl<'a> Parser<'a> {
    pub(super) fn new(
        line: usize,
        text: &'a str,
        scope: &'a Scope,
        faults: &'a mut Faults,
    ) -> Parser<'a> {
        Parser {
            tokens: tokens(text),
            at: 0,
            depth: 0,
            line,
            scope,
            faults,
        }
    }

    /// The token so many places ahead.
    pub(super) fn ahead(&self, places: usize) -> &Token<'a> {
        let last = self.tokens.len() - 1;
        &self.tokens[last.min(self.at + places)]
    }

    pub(super) fn lexeme(&self) -> &Lexeme<'a> {
        &self.ahead(0).lexeme
    }

    /// Whether the token so many places ahead is this word or sign.
    pub(super) fn is(&self, places: usize, fixed: &str) -> bool {
        matches!(self.ahead(places).lexeme, Lexeme::Fixed(word) if word == fixed)
    }

    /// Steps over a word or sign, if it is next.
    pub(super) fn take(&mut self, fixed: &str) -> bool {
        let next = self.is(0, fixed);
        self.at += usize::from(next);
        next
    }

    /// What the name so many places ahead is declared as.
    pub(super) fn meaning(&self, places: usize) -> Option<Meaning> {
        match &self.ahead(places).lexeme {
            Lexeme::Name(name) => Some(self.scope.get(name)?.meaning),
            _ => None,
        }
    }

    /// Tells what is wrong at the next token.
    pub(super) fn tell(&mut self, problem: Problem) {
        self.tell_at(self.at, problem);
    }

    /// Tells what is wrong at a token.
    fn tell_at(&mut self, place: usize, problem: Problem) {
        let column = self.tokens[place.min(self.tokens.len() - 1)].column;
        self.faults.push(self.line, column, problem);
    }

    /// After a syntax error: tells what else on the line is wrong in any case, that is, after a
    /// word or a sign; or, in a list that declares names, after a comma.
    pub(super) fn rest(&mut self, declares: bool) {
        for place in self.at + 1..self.tokens.len() {
            let before = match self.tokens[place - 1].lexeme {
                Lexeme::Fixed(before) if (before == ",") == declares => before,
                _ => continue,
            };
            let problem = match &self.tokens[place].lexeme {
                Lexeme::Wrong(reason) => Problem::Said(reason.clone()),
                Lexeme::Name(name) if !declares && self.scope.get(name).is_none() => {
                    let next = self.tokens.get(place + 1).map(|token| &token.lexeme);
                    let role = before == "then" || next == Some(&Lexeme::Fixed("some"));
                    let name = name.to_string();
                    Problem::Undeclared { name, role }
                }
                _ => continue,
            };
            self.tell_at(place, problem);
        }
    }

    /// The syntax error that the next token is, where something else was expected.
    pub(super) fn expected<T>(&mut self, what: &str) -> Parsed<T> {
        let found = match self.lexeme() {
            Lexeme::Wrong(reason) => return self.error(reason.clone()),
            Lexeme::Name(name) => format!("`{}`", quoted(name)),
            Lexeme::Fixed(word) => format!("`{word}`"),
            Lexeme::End => "the end of the line".to_owned(),
        };
        self.error(format!("expected {what}, found {found}"))
    }

    /// A syntax error at the next token.
    pub(super) fn error<T>(&mut self, message: String) -> Parsed<T> {
        self.tell(Problem::Said(message));
        Err(Ended)
    }

    /// A role, by name.
    pub(super) fn role(&mut self) -> Parsed<Role> {
        let Lexeme::Name(name) = self.lexeme() else {
            return self.expected("a role");
        };
        let role = match self.meaning(0) {
            Some(Meaning::Role(role)) => role,
            Some(other) => {
                let (name, sort) = (quoted(name), other.sort());
                let message = format!("`{name}` is {sort}, and a role is meant here");
                self.tell(Problem::Said(message));
                Role(0)
            }
            None => {
                let name = name.to_string();
                self.tell(Problem::Undeclared { name, role: true });
                Role(0)
            }
        };
        self.at += 1;
        Ok(role)
    }

    /// An expression, and the end of the line.
    pub(super) fn expression_alone(&mut self) -> Parsed<Expression> {
        let expression = self.expression()?;
        self.end("`and` or the end of the line")?;
        Ok(expression)
    }

    /// The end of the line, where `expected` could have stood.
    pub(super) fn end(&mut self, expected: &str) -> Parsed<()> {
        match self.lexeme() {
            Lexeme::End => Ok(()),
            _ => self.expected(expected),
        }
    }

    /// The longest expression that begins here.
    pub(super) fn expression(&mut self) -> Parsed<Expression> {
        let mut nodes = vec![];
        let mut pending = vec![];
        loop {
            let leaf = self.leaf(&mut pending)?;
            nodes.push(leaf);
            if !self.join(&mut nodes, &mut pending)? {
                return Ok(Expression::new(nodes));
            }
        }
    }

    /// What stands before the next leaf, and the leaf.
    fn leaf(&mut self, pending: &mut Vec<Pending>) -> Parsed<Node> {
        loop {
            if self.is(0, "(") {
                if self.depth == NESTING {
                    return self.error(format!("parentheses nest more than {NESTING} deep"));
                }
                self.depth += 1;
                self.at += 1;
                pending.push(Pending::Parenthesis);
            } else if matches!(self.lexeme(), Lexeme::Name(_)) && self.is(1, "some") {
                pending.push(Pending::Existential(self.role()?));
                self.at += 1;
            } else if self.take("any") {
                return Ok(Node::Top);
            } else {
                return self.named();
            }
        }
    }

    /// A kind or a let, by name.
    fn named(&mut self) -> Parsed<Node> {
        let name = match self.lexeme() {
            Lexeme::Name(name) => name,
            Lexeme::Fixed("none") => {
                return self.error("`none` is reserved, and means nothing yet".to_owned());
            }
            _ => return self.expected("a concept"),
        };
        let node = match self.meaning(0) {
            Some(Meaning::Kind(concept) | Meaning::Let(concept)) => Node::Named(concept),
            Some(Meaning::Role(_)) => {
                let wanted = format!("`some` after the role `{}`", quoted(name));
                self.at += 1;
                return self.expected(&wanted);
            }
            None => {
                let name = name.to_string();
                self.tell(Problem::Undeclared { name, role: false });
                Node::Top
            }
        };
        self.at += 1;
        Ok(node)
    }

    /// Joins the last part with what is under way around it. Whether a term follows.
    fn join(&mut self, nodes: &mut Vec<Node>, pending: &mut Vec<Pending>) -> Parsed<bool> {
        loop {
            let last = nodes.len() - 1;
            match pending.pop() {
                Some(Pending::Existential(role)) => nodes.push(Node::Existential(role, last)),
                Some(Pending::Conjunction(left)) => nodes.push(Node::Conjunction(left, last)),
                Some(Pending::Parenthesis) if self.take(")") => self.depth -= 1,
                around => {
                    let inside = around.is_some();
                    pending.extend(around);
                    if self.take("and") {
                        pending.push(Pending::Conjunction(last));
                        return Ok(true);
                    }
                    return match inside {
                        true => self.expected("`and` or `)`"),
                        false => Ok(false),
                    };
                }
            }
        }
    }
}
