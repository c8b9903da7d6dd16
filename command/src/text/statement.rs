//! The statement of a line.

use girvotal::{Composition, Inclusion};

use super::expression::Expression;
use super::faults::{Problem, not_declared};
use super::lexer::{Lexeme, Token};
use super::names::{RESERVED, quoted};
use super::nearest::nearest;
use super::parser::{Parsed, Parser};
use super::scope::Meaning;

/// A name where it is declared.
pub(super) struct Declaration {
    pub(super) name: String,
    pub(super) column: usize,
}

/// What a line says.
pub(super) enum Statement {
    Empty,
    Kinds(Vec<Declaration>),
    Roles(Vec<Declaration>),
    /// None where what it names is faulty.
    Let(Declaration, Option<Expression>),
    Inclusion(Inclusion),
    Composition(Composition),
    Axioms(Vec<Sides>),
}

/// An axiom's left and right side.
pub(super) type Sides = (Expression, Expression);

impl Parser<'_> {
    /// The line's statement. After a syntax error the rest of the line is searched for what is
    /// wrong in any case.
    pub(super) fn statement(&mut self) -> Parsed<Statement> {
        let statement = self.first_statement();
        if statement.is_err() {
            self.rest(false);
        }
        statement
    }

    fn first_statement(&mut self) -> Parsed<Statement> {
        match self.keyword() {
            Some("kind") => Ok(Statement::Kinds(self.declarations())),
            Some("role") => Ok(Statement::Roles(self.declarations())),
            Some(_) => self.definition(),
            None if *self.lexeme() == Lexeme::End => Ok(Statement::Empty),
            None if self.is_role_axiom()? => self.role_axiom(),
            None => Ok(Statement::Axioms(self.axioms()?)),
        }
    }

    /// The axioms of a line that says nothing else.
    pub(super) fn axioms_alone(&mut self) -> Parsed<Vec<Sides>> {
        if let Lexeme::Fixed(word @ ("kind" | "role" | "let")) = *self.lexeme() {
            let wrong = self.error(format!(
                "`{word}` is no axiom: print the text by `girvotal text STATE`, change it, and \
                 `girvotal update STATE TEXT`"
            ));
            self.at = self.tokens.len();
            return wrong;
        }
        if self.is_role_axiom()? {
            return self
                .error("role axioms cannot be changed; classify the changed text".to_owned());
        }
        self.axioms()
    }

    /// The kinds that a line declares, each by a name that is free; none of a line that begins with
    /// another word than `kind`.
    pub(super) fn kinds_alone(&mut self) -> Parsed<Vec<String>> {
        let mut names = vec![];
        if !self.take("kind") {
            return Ok(names);
        }
        loop {
            let at = self.at;
            let Declaration { name, .. } = self.declaration()?;
            if self.scope.get(&name).is_some() || names.contains(&name) {
                self.at = at;
                let name = quoted(&name);
                return self.error(format!("`{name}` is declared already; take another name"));
            }
            names.push(name);
            if !self.take(",") {
                self.end("`,` or the end of the line")?;
                return Ok(names);
            }
        }
    }

    /// Steps over the word that begins a declaration, also if it is misspelt: then an undeclared
    /// name stands before a name, as in no statement.
    fn keyword(&mut self) -> Option<&'static str> {
        const KEYWORDS: [&str; 3] = ["kind", "role", "let"];
        let keyword = match (self.lexeme(), &self.ahead(1).lexeme) {
            (Lexeme::Fixed(word), _) => KEYWORDS.into_iter().find(|keyword| keyword == word)?,
            (Lexeme::Name(name), Lexeme::Name(_)) if self.meaning(0).is_none() => {
                let keyword = nearest(name, KEYWORDS.into_iter())?;
                let message = not_declared(name, Some(keyword));
                self.tell(Problem::Said(message));
                keyword
            }
            _ => return None,
        };
        self.at += 1;
        Some(keyword)
    }

    /// Names with commas between. A faulty list still declares what it names, so that nothing
    /// follows from it; unless it goes on as an axiom.
    fn declarations(&mut self) -> Vec<Declaration> {
        let mut names = vec![];
        if self.list(&mut names).is_ok() {
            return names;
        }
        self.rest(true);
        let rest = &self.tokens[self.at..];
        let sides = [Lexeme::Fixed("<"), Lexeme::Fixed("=")];
        if rest.iter().any(|token| sides.contains(&token.lexeme)) {
            return names;
        }
        for Token { lexeme, column } in rest {
            match lexeme {
                Lexeme::Name(name) if self.scope.get(name).is_none() => names.push(Declaration {
                    name: name.to_string(),
                    column: *column,
                }),
                _ => {}
            }
        }
        names
    }

    /// Adds the names of a list.
    fn list(&mut self, names: &mut Vec<Declaration>) -> Parsed<()> {
        loop {
            names.push(self.declaration()?);
            if !self.take(",") {
                return self.end("`,` or the end of the line");
            }
        }
    }

    /// A name that is declared here.
    fn declaration(&mut self) -> Parsed<Declaration> {
        let column = self.ahead(0).column;
        match self.lexeme() {
            Lexeme::Name(name) => {
                let name = name.to_string();
                self.at += 1;
                Ok(Declaration { name, column })
            }
            Lexeme::Fixed(word) if RESERVED.contains(word) => {
                let quotes = quoted(word);
                self.error(format!(
                    "`{word}` is reserved; as a name it is quoted: `{quotes}`"
                ))
            }
            _ => self.expected("a name"),
        }
    }

    /// What follows `let`.
    fn definition(&mut self) -> Parsed<Statement> {
        let name = self.declaration()?;
        let composite = self.composite();
        if composite.is_err() {
            self.rest(false);
        }
        Ok(Statement::Let(name, composite.ok()))
    }

    /// `=` and an expression that is no kind.
    fn composite(&mut self) -> Parsed<Expression> {
        if !self.take("=") {
            return self.expected("`=`");
        }
        let begin = self.at;
        let expression = self.expression_alone()?;
        if expression.named().is_some() {
            // A name alone, perhaps in parentheses.
            self.at = begin;
            while self.take("(") {}
            if let (Lexeme::Name(name), Some(Meaning::Kind(_))) = (self.lexeme(), self.meaning(0)) {
                let name = quoted(name);
                return self.error(format!("`let` names a composite, and `{name}` is a kind"));
            }
        }
        Ok(expression)
    }

    /// Whether the line is about roles: a role, or at least no concept, before `then` or `<`.
    fn is_role_axiom(&mut self) -> Parsed<bool> {
        let name = match self.lexeme() {
            Lexeme::Name(name) if !self.is(1, "some") => name,
            _ => return Ok(false),
        };
        let is_role = |meaning| matches!(meaning, Some(Meaning::Role(_)));
        let ends = self.ahead(3).lexeme == Lexeme::End;
        match self.meaning(0) {
            _ if self.is(1, "then") => Ok(true),
            Some(Meaning::Role(_)) if self.is(1, "<") => Ok(true),
            Some(Meaning::Role(_)) if self.is(1, "=") => {
                self.at += 1;
                self.error("`=` stands between concepts; roles have `<` alone".to_owned())
            }
            Some(Meaning::Role(_)) => {
                let wanted = format!("`some`, `then` or `<` after the role `{}`", quoted(name));
                self.at += 1;
                self.expected(&wanted)
            }
            None => Ok(self.is(1, "<") && is_role(self.meaning(2)) && ends),
            _ => Ok(false),
        }
    }

    /// An inclusion or a composition.
    fn role_axiom(&mut self) -> Parsed<Statement> {
        let first = self.role()?;
        let second = match self.take("then") {
            true => Some(self.role()?),
            false => None,
        };
        if second.is_some() && self.is(0, "then") {
            return self.error("`then` joins two roles, and no third".to_owned());
        }
        if !self.take("<") {
            return self.expected("`<`");
        }
        let result = self.role()?;
        self.end("the end of the line")?;
        Ok(match second {
            None => Statement::Inclusion(Inclusion {
                within: first,
                around: result,
            }),
            Some(second) => Statement::Composition(Composition {
                first,
                second,
                result,
            }),
        })
    }

    /// One axiom of expressions, or two.
    fn axioms(&mut self) -> Parsed<Vec<Sides>> {
        let left = self.expression()?;
        let both = self.take("=");
        if !both && !self.take("<") {
            return self.expected("`and`, `<` or `=`");
        }
        let right = self.expression_alone()?;
        let converse = (both && left != right).then(|| (right.clone(), left.clone()));
        let mut axioms = vec![(left, right)];
        axioms.extend(converse);
        Ok(axioms)
    }
}
