//! Expressions over the records of a catalogue.

use girvotal::{Concept, Role};

use super::names::Spelling;

/// A part of an expression; its own parts stand before it.
#[derive(Clone, Copy, Debug, PartialEq, Eq)]
pub(super) enum Node {
    /// A kind or a let.
    Named(Concept),
    Top,
    Existential(Role, usize),
    Conjunction(usize, usize),
}

/// A concept as a text writes it, its names resolved to numbers.
#[derive(Clone, Debug, PartialEq, Eq)]
pub struct Expression {
    /// Never empty; the last is the whole.
    nodes: Vec<Node>,
}

impl Expression {
    /// The expression of these parts, at least one.
    pub(super) fn new(nodes: Vec<Node>) -> Expression {
        assert!(!nodes.is_empty());
        Expression { nodes }
    }

    /// The parts, and the whole as the last.
    pub(super) fn nodes(&self) -> &[Node] {
        &self.nodes
    }

    /// The concept, if it is a name alone.
    pub fn named(&self) -> Option<Concept> {
        match self.nodes[..] {
            [Node::Named(concept)] => Some(concept),
            _ => None,
        }
    }

    /// The text of it, by these names.
    pub(super) fn written(&self, spelling: &Spelling) -> String {
        let shape = |part: usize| match self.nodes[part] {
            Node::Named(Concept(number)) => Shape::Word(&spelling.concepts[usize::from(number)]),
            Node::Top => Shape::Word("any"),
            Node::Existential(Role(role), part) => {
                Shape::Some(&spelling.roles[usize::from(role)], part)
            }
            Node::Conjunction(left, right) => Shape::And(left, right),
        };
        write(shape(self.nodes.len() - 1), shape)
    }
}

/// How a part is written: as one word, or out of parts by their numbers.
#[derive(Clone, Copy)]
pub(super) enum Shape<'a> {
    Word(&'a str),
    Some(&'a str, usize),
    And(usize, usize),
}

/// The text of an expression of the shape `whole`, where `shape` says those of its parts:
/// parentheses stand only where `and` would group otherwise.
pub(super) fn write<'a>(whole: Shape<'a>, shape: impl Fn(usize) -> Shape<'a>) -> String {
    /// A shape, and whether it stands where the grammar has a term.
    type Piece<'a> = (Shape<'a>, bool);
    let mut text = String::new();
    let mut pieces: Vec<Piece<'a>> = vec![(whole, false)];
    while let Some((piece, term)) = pieces.pop() {
        match piece {
            Shape::Word(word) => text.push_str(word),
            Shape::Some(role, part) => {
                text.push_str(role);
                text.push_str(" some ");
                pieces.push((shape(part), true));
            }
            Shape::And(left, right) => {
                if term {
                    text.push('(');
                    pieces.push((Shape::Word(")"), true));
                }
                pieces.push((shape(right), true));
                pieces.push((Shape::Word(" and "), true));
                pieces.push((shape(left), false));
            }
        }
    }
    text
}
