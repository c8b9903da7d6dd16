//! A set of pairs and links as plain sets, indexed by partition: for each
//! concept its subsumers, and for each role its successors and predecessors.

use crate::rules::Expression;
use std::collections::BTreeSet;

#[derive(Clone, Debug, PartialEq, Eq)]
pub struct ExpressionSet {
    roles: usize,
    subsumers: Vec<BTreeSet<usize>>,
    /// Successors of concept e by role r, at e · roles + r.
    successors: Vec<BTreeSet<usize>>,
    /// Predecessors of concept c by role r, at c · roles + r.
    predecessors: Vec<BTreeSet<usize>>,
}

impl ExpressionSet {
    pub fn new(concepts: usize, roles: usize) -> ExpressionSet {
        ExpressionSet {
            roles,
            subsumers: vec![BTreeSet::new(); concepts],
            successors: vec![BTreeSet::new(); concepts * roles],
            predecessors: vec![BTreeSet::new(); concepts * roles],
        }
    }

    /// Adds an expression; whether it is new.
    pub fn insert(&mut self, expression: Expression) -> bool {
        match expression {
            Expression::Pair(c, d) => self.subsumers[c].insert(d),
            Expression::Link(e, r, c) => {
                self.predecessors[c * self.roles + r].insert(e);
                self.successors[e * self.roles + r].insert(c)
            }
        }
    }

    pub fn contains(&self, expression: Expression) -> bool {
        match expression {
            Expression::Pair(c, d) => self.subsumers[c].contains(&d),
            Expression::Link(e, r, c) => self.successors[e * self.roles + r].contains(&c),
        }
    }

    /// Every D with C ⊑ D.
    pub fn subsumers(&self, c: usize) -> &BTreeSet<usize> {
        &self.subsumers[c]
    }

    /// Every C with a link (E, R, C).
    pub fn successors(&self, e: usize, r: usize) -> &BTreeSet<usize> {
        &self.successors[e * self.roles + r]
    }

    /// Every E with a link (E, R, C).
    pub fn predecessors(&self, c: usize, r: usize) -> &BTreeSet<usize> {
        &self.predecessors[c * self.roles + r]
    }

    pub fn pairs(&self) -> usize {
        self.subsumers.iter().map(BTreeSet::len).sum()
    }

    pub fn links(&self) -> usize {
        self.successors.iter().map(BTreeSet::len).sum()
    }

    /// All pairs, then all links, rising.
    pub fn iter(&self) -> impl Iterator<Item = Expression> + '_ {
        let roles = self.roles;
        let pairs = self.subsumers.iter().enumerate();
        let links = self.successors.iter().enumerate();
        pairs
            .flat_map(|(c, row)| row.iter().map(move |&d| Expression::Pair(c, d)))
            .chain(links.flat_map(move |(at, row)| {
                row.iter()
                    .map(move |&c| Expression::Link(at / roles, at % roles, c))
            }))
    }

    /// What is in this set and not in the other.
    pub fn without(&self, other: &ExpressionSet) -> ExpressionSet {
        let mut rest = ExpressionSet::new(self.subsumers.len(), self.roles);
        for expression in self.iter().filter(|&x| !other.contains(x)) {
            rest.insert(expression);
        }
        rest
    }

    /// The partitions of the members.
    pub fn partitions(&self) -> BTreeSet<usize> {
        self.iter().map(Expression::partition).collect()
    }
}
