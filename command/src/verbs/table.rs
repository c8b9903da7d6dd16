//! The table of verbs, from which the arguments are read and the help is printed.

use super::{answers, changes, diff, explain, query, texts, tree, update};
use crate::arguments::{Flag, Given};
use crate::failure::Failure;
use crate::{Report, Streams};

/// A verb of the command.
pub struct Verb {
    /// Its name.
    pub name: &'static str,
    /// What follows its name.
    pub usage: &'static str,
    /// The names of its operands.
    pub operands: &'static [&'static str],
    /// How many of the last of them may be left out.
    pub optional: usize,
    /// Its options, beside those that every verb takes.
    pub flags: &'static [Flag],
    /// What it does, in a line.
    pub summary: &'static str,
    /// What it does, in some.
    pub help: &'static str,
    /// Does it.
    pub run: fn(&Given, &mut Streams<'_>) -> Result<Report, Failure>,
}

/// The option for the file that is made.
const OUTPUT: Flag = Flag {
    name: "-o",
    value: "FILE",
    help: "the file to make; `-` is standard output",
};

/// The option to replace a file that holds something else.
const FORCE: Flag = Flag {
    name: "--force",
    value: "",
    help: "replace a file that holds something else, too",
};

/// The option for what a change touched.
const TOUCHED: Flag = Flag {
    name: "--touched",
    value: "",
    help: "print the counts of pairs and links too, and the kinds touched: all others answer as before",
};

/// The option to change nothing.
const DRY_RUN: Flag = Flag {
    name: "--dry-run",
    value: "",
    help: "print what would be lost and gained, and change nothing",
};

/// The option for how long a run waits for another one.
const WAIT: Flag = Flag {
    name: "--wait",
    value: "SECONDS",
    help: "how long to wait while another run makes a file in this folder; 5 if not said",
};

/// All verbs.
pub const VERBS: &[Verb] = &[
    Verb {
        name: "check",
        usage: "TEXT [--lint]",
        operands: &["TEXT"],
        optional: 0,
        flags: &[Flag {
            name: "--lint",
            value: "",
            help: "print what it could do without: kinds and roles that nothing uses, kinds that \
                   came out equal, repeated role axioms, right sides that could be split",
        }],
        summary: "check a text",
        help: "Checks a text and prints how much it declares, or all its errors.",
        run: texts::check,
    },
    Verb {
        name: "compile",
        usage: "TEXT -o CATALOGUE",
        operands: &["TEXT"],
        optional: 0,
        flags: &[OUTPUT, FORCE, WAIT],
        summary: "make a catalogue of a text",
        help: "Makes the catalogue that a text says.",
        run: texts::compile,
    },
    Verb {
        name: "text",
        usage: "FILE [--exact | --owl | --split]",
        operands: &["FILE"],
        optional: 0,
        flags: &[
            Flag {
                name: "--exact",
                value: "",
                help: "one statement for each record, so that it compiles back to the same bytes, but \
                       for repeated role axioms",
            },
            Flag {
                name: "--owl",
                value: "",
                help: "OWL 2 in functional-style syntax, a class for each record",
            },
            Flag {
                name: "--split",
                value: "",
                help: "right sides split, `A < B and C` as `A < B` and `A < C`: fewer concepts",
            },
        ],
        summary: "print a catalogue as text or as OWL",
        help: "Prints the text of a catalogue, of a state (the axioms in force) or of another\n\
               text. Parts that several concepts share stand once, by `let`.",
        run: texts::text,
    },
    Verb {
        name: "classify",
        usage: "FILE -o STATE",
        operands: &["FILE"],
        optional: 0,
        flags: &[OUTPUT, FORCE, WAIT],
        summary: "classify a text or a catalogue into a state",
        help: "Works out which concepts lie under which, and makes the state of them: one\n\
               file with names, catalogue and store. FILE is a text, a catalogue or a state.",
        run: texts::classify,
    },
    Verb {
        name: "update",
        usage: "STATE TEXT [--dry-run]",
        operands: &["STATE", "TEXT"],
        optional: 0,
        flags: &[DRY_RUN, WAIT],
        summary: "bring a state in step with a text",
        help: "Makes the state what `classify` makes of the text, and prints which kinds no\n\
               longer lie under which (-) and which newly do (+). It is one change of the\n\
               store where the text has the same concepts and roles as the state and at most\n\
               64 axioms go and 64 come; else the text is classified.",
        run: update::update,
    },
    Verb {
        name: "lookup",
        usage: "STATE A B | STATE -",
        operands: &["STATE", "A", "B"],
        optional: 1,
        flags: &[],
        summary: "say whether A lies under B: yes (0) or no (1)",
        help: "Prints `yes` if every A is a B by the axioms in force, whatever else holds,\n\
               and `no` if not. A and B are kinds or expressions; a composite must be part of\n\
               an axiom in force. With `-` it answers pairs from standard input, a line each:\n\
               `A < B`, or A and B with a tab between.",
        run: answers::lookup,
    },
    Verb {
        name: "list",
        usage: "STATE B [--direct]",
        operands: &["STATE", "B"],
        optional: 0,
        flags: &[Flag {
            name: "--direct",
            value: "",
            help: "only those directly below: under B, not equal to it, and under no other such kind",
        }],
        summary: "list the kinds under B",
        help: "Prints every kind that lies under B, a kind or an expression, one a line. A\n\
               kind lies under itself.",
        run: answers::list,
    },
    Verb {
        name: "above",
        usage: "STATE A [--direct]",
        operands: &["STATE", "A"],
        optional: 0,
        flags: &[Flag {
            name: "--direct",
            value: "",
            help: "only those directly above: above A, not equal to it, and above no other such kind",
        }],
        summary: "list the kinds above A",
        help: "Prints every kind that A, a kind or an expression, lies under, one a line. A\n\
               kind lies under itself.",
        run: answers::above,
    },
    Verb {
        name: "query",
        usage: "STATE EXPR",
        operands: &["STATE", "EXPR"],
        optional: 0,
        flags: &[],
        summary: "list the kinds that meet a wish",
        help: "Prints every kind that lies under an expression, be that in the catalogue or not,\n\
               one a line: `= NAME` for a kind that is equal to it, and at the end `< NAME` for\n\
               each kind directly above it. The state is classified in memory with the wish as\n\
               a kind of its own; nothing is written.",
        run: query::query,
    },
    Verb {
        name: "diff",
        usage: "A B",
        operands: &["FILE", "FILE"],
        optional: 0,
        flags: &[],
        summary: "say by which pairs of kinds two files differ: none (0) or some (1)",
        help: "Prints which kinds lie under which by A and not by B (-), and by B and not by A\n\
               (+). A and B are states, texts or catalogues; kinds are the same that have the\n\
               same name.",
        run: diff::diff,
    },
    Verb {
        name: "tree",
        usage: "STATE [--dot | --html] [-o FILE]",
        operands: &["STATE"],
        optional: 0,
        flags: &[
            Flag {
                name: "--dot",
                value: "",
                help: "a graph for Graphviz instead",
            },
            Flag {
                name: "--html",
                value: "",
                help: "a page for a browser instead: one file, with a filter",
            },
            OUTPUT,
            FORCE,
            WAIT,
        ],
        summary: "draw the kinds as a tree",
        help: "Prints all kinds as a tree: equal ones in one entry, `a = b`, and under each entry\n\
               those directly below, by name. An entry with several above stands under each;\n\
               what lies below it stands at the first place alone, the others have ` ^`. Kinds\n\
               in no axiom in force come last.",
        run: tree::tree,
    },
    Verb {
        name: "change",
        usage: "STATE [--out 'A < B'].. [--in 'A < B']..",
        operands: &["STATE"],
        optional: 0,
        flags: &[
            Flag {
                name: "--out",
                value: "AXIOM",
                help: "withdraw an axiom; may be given again",
            },
            Flag {
                name: "--in",
                value: "AXIOM",
                help: "add an axiom, or kinds: `kind NAME`; may be given again",
            },
            TOUCHED,
            DRY_RUN,
            WAIT,
        ],
        summary: "withdraw and add axioms, at once",
        help: "Withdraws axioms in force and adds others, in one change, and prints which kinds\n\
               no longer lie under which (-) and which newly do (+). With a composite that the\n\
               state does not have yet, a new catalogue is classified first. `A = B` is two\n\
               axioms.",
        run: changes::change,
    },
    Verb {
        name: "add",
        usage: "STATE 'A < B' | 'kind NAME'",
        operands: &["STATE", "AXIOM"],
        optional: 0,
        flags: &[TOUCHED, DRY_RUN, WAIT],
        summary: "add one axiom, or enter a kind",
        help: "The same as `change STATE --in 'A < B'`; with `kind NAME`, a kind of which nothing\n\
               is said yet.",
        run: changes::add,
    },
    Verb {
        name: "withdraw",
        usage: "STATE 'A < B'",
        operands: &["STATE", "AXIOM"],
        optional: 0,
        flags: &[TOUCHED, DRY_RUN, WAIT],
        summary: "withdraw one axiom",
        help: "The same as `change STATE --out 'A < B'`.",
        run: changes::withdraw,
    },
    Verb {
        name: "write",
        usage: "STATE -o CATALOGUE",
        operands: &["STATE"],
        optional: 0,
        flags: &[OUTPUT, FORCE, WAIT],
        summary: "make the catalogue with the axioms in force",
        help: "Makes the catalogue that a state has now: its records, with the axioms in\n\
               force.",
        run: texts::write,
    },
    Verb {
        name: "explain",
        usage: "N",
        operands: &["N"],
        optional: 0,
        flags: &[],
        summary: "explain a refusal by its number",
        help: "Says what a refusal's number means and what to do. N may also be the whole\n\
               result of a call, with the record at fault in it.",
        run: explain::explain,
    },
];
