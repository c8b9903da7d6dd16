//! The manual page `girvotal.1`, made from the table of verbs.

use crate::arguments::{DESCRIPTION, Flag, OPTIONS, STATUSES, STREAMS};
use crate::verbs::Verb;

/// Lines that are run, with what they print.
pub const EXAMPLES: &str = "\
$ girvotal classify lake.gv -o lake.state
9 kinds, 3 roles, 19 concepts, 8 axioms: 75 pairs, 28 links
$ girvotal lookup lake.state 'Seeplatz Süd' comfort-pitch
yes
$ girvotal withdraw lake.state 'tap < supplies some water'
- \"Seeplatz Süd\" < comfort-pitch
1 lost, 0 gained; one change: 1 axiom out, 0 in
$ girvotal lookup lake.state 'Seeplatz Süd' comfort-pitch
no
$ girvotal update lake.state lake.gv
+ \"Seeplatz Süd\" < comfort-pitch
0 lost, 1 gained; one change: 0 axioms out, 1 in
";

/// The grammar of texts, as docs/COMMAND.md has it.
pub const GRAMMAR: &str = "\
line = [\"kind\" NAME {\",\" NAME} | \"role\" NAME {\",\" NAME}
     | \"let\" NAME \"=\" expr | ROLE [\"then\" ROLE] \"<\" ROLE
     | expr (\"<\" | \"=\") expr] [\"#\" ..]
expr = term {\"and\" term}
term = KIND | LET | \"any\" | ROLE \"some\" term | \"(\" expr \")\"
";

/// What the command reads and makes.
const FILES: [(&str, &str); 4] = [
    ("TEXT", "a catalogue as text, UTF-8, one statement a line"),
    ("CATALOGUE", "a catalogue's bytes"),
    (
        "STATE",
        "names, catalogue and store of a classified catalogue",
    ),
    (
        "FILE.girvotal-new",
        "FILE while it is made. A run that was killed may leave it behind; the next one that makes\n\
         FILE takes it over.",
    ),
];

/// The page for these verbs, in the macros of man.
pub fn manual(verbs: &[Verb]) -> String {
    let version = env!("CARGO_PKG_VERSION");
    let mut page = format!(
        ".\\\" Made from the table of verbs by src/manual.rs.\n\
         .TH GIRVOTAL 1 2026-01-01 \"girvotal {version}\" \"User Commands\"\n\
         .SH NAME\ngirvotal \\- classify catalogues of kinds and keep them in step\n"
    );
    page += ".SH SYNOPSIS\n.nf\n";
    for verb in verbs {
        page += &format!("\\fBgirvotal {}\n", usage(verb));
    }
    page += &format!(
        ".fi\n.SH DESCRIPTION\n{}{}",
        prose(DESCRIPTION),
        prose(STREAMS)
    );
    page += ".SH VERBS\n";
    for verb in verbs {
        page += &entry(&format!("\\fB{}", usage(verb)), verb.help);
        page += &nested(verb.flags);
    }
    page += &format!(".SH TEXT\n{}", verbatim(GRAMMAR));
    page += ".SH OPTIONS\n";
    page += &options(&OPTIONS);
    page += ".SH EXIT STATUS\n";
    for (status, meaning) in STATUSES {
        page += &entry(&status.to_string(), meaning);
    }
    page += ".SH FILES\n";
    for (file, meaning) in FILES {
        page += &entry(&styled(file), meaning);
    }
    page += &format!(".SH EXAMPLES\n{}.SH SEE ALSO\n", verbatim(EXAMPLES));
    page += &prose(
        "docs/COMMAND.md says more of texts and verbs, docs/FORMAT.md has the bytes of catalogues\n\
         and states, docs/REFUSALS.md what each refusal means.",
    );
    page
}

/// A verb's name, in bold since before, and what follows it.
fn usage(verb: &Verb) -> String {
    let name = escaped(verb.name);
    format!("{name}\\fP {}", styled(verb.usage))
}

/// A paragraph with a tag.
fn entry(tag: &str, text: &str) -> String {
    format!(".TP\n{}{}", full_line(tag), prose(text))
}

/// Options, each a paragraph.
fn options(flags: &[Flag]) -> String {
    let option = |flag: &Flag| {
        let tag = format!("{} {}", flag.name, flag.value);
        entry(&styled(tag.trim_end()), flag.help)
    };
    flags.iter().map(option).collect()
}

/// The same below a verb.
fn nested(flags: &[Flag]) -> String {
    match flags {
        [] => String::new(),
        _ => format!(".RS\n{}.RE\n", options(flags)),
    }
}

/// The column at which prose is broken.
const WIDTH: usize = 78;

/// Prose; what stands in backquotes is bold.
fn prose(text: &str) -> String {
    let mut written = String::new();
    for (i, part) in text.split('`').enumerate() {
        written += ["\\fP", "\\fB"][i % 2];
        written += &escaped(part);
    }
    let written = written.trim_start_matches("\\fP");
    let mut lines: Vec<String> = Vec::new();
    for word in written.split_whitespace() {
        match lines.last_mut() {
            Some(line) if line.len() + word.len() < WIDTH => *line += &format!(" {word}"),
            _ => lines.push(word.to_owned()),
        }
    }
    lines.iter().map(|line| full_line(line)).collect()
}

/// Lines as they are.
fn verbatim(text: &str) -> String {
    let lines = text.lines().map(|line| full_line(&escaped(line)));
    format!(".nf\n{}.fi\n", lines.collect::<String>())
}

/// What is typed: options bold, and what stands for something else, in capitals, italic.
fn styled(usage: &str) -> String {
    let letter = |c: char| c.is_ascii_alphabetic() || c == '-';
    let mut written = String::new();
    let characters: Vec<char> = usage.chars().collect();
    for word in characters.chunk_by(|one, next| letter(*one) == letter(*next)) {
        let word: String = word.iter().collect();
        let font = match word {
            _ if word.starts_with('-') => "\\fB",
            _ if word.chars().all(|c| c.is_ascii_uppercase()) => "\\fI",
            _ => "",
        };
        let end = if font.is_empty() { "" } else { "\\fP" };
        written += &format!("{font}{}{end}", escaped(&word));
    }
    written
}

/// Characters as they are printed, without what the macros or fonts make of them.
fn escaped(text: &str) -> String {
    let character = |c: char| match c {
        '\\' => "\\e".to_owned(),
        '-' => "\\-".to_owned(),
        '\'' => "\\(aq".to_owned(),
        '`' => "\\(ga".to_owned(),
        '^' => "\\(ha".to_owned(),
        '~' => "\\(ti".to_owned(),
        _ if c.is_ascii() => c.to_string(),
        _ => format!("\\[u{:04X}]", u32::from(c)),
    };
    text.chars().map(character).collect()
}

/// A line that is no request.
fn full_line(line: &str) -> String {
    let guard = if line.starts_with('.') { "\\&" } else { "" };
    format!("{guard}{line}\n")
}

#[cfg(test)]
mod tests {
    use super::*;

    #[test]
    fn lines_and_characters() {
        assert_eq!(full_line(".."), "\\&..\n");
        assert_eq!(prose("a `b\nc` -d"), "a \\fBb c\\fP \\-d\n");
        assert_eq!(prose("`b` .."), "\\fBb\\fP ..\n");
        let long = "word ".repeat(30);
        assert!(prose(&long).lines().all(|line| line.len() < WIDTH));
        assert_eq!(escaped("ü\\^~`"), "\\[u00FC]\\e\\(ha\\(ti\\(ga");
        assert_eq!(
            styled("STATE [--in 'A < B'].."),
            "\\fISTATE\\fP [\\fB\\-\\-in\\fP \\(aq\\fIA\\fP < \\fIB\\fP\\(aq].."
        );
    }
}
