//! The command `girvotal`.

use std::io::{self, Write};
use std::process::ExitCode;

use girvotal_command::system::output_was_closed;
use girvotal_command::{Streams, run};

/// A standard output that was closed: nothing can be written to it.
struct Closed;

impl Closed {
    fn error() -> io::Error {
        io::Error::new(io::ErrorKind::BrokenPipe, "it is closed")
    }
}

impl Write for Closed {
    fn write(&mut self, _: &[u8]) -> io::Result<usize> {
        Err(Closed::error())
    }

    fn flush(&mut self) -> io::Result<()> {
        Err(Closed::error())
    }
}

fn main() -> ExitCode {
    let (mut open, mut closed) = (io::stdout().lock(), Closed);
    let mut streams = Streams {
        input: &mut io::stdin().lock(),
        output: match output_was_closed() {
            true => &mut closed,
            false => &mut open,
        },
        errors: &mut io::stderr().lock(),
        after: &|_| (),
    };
    let arguments = std::env::args_os().skip(1).collect();
    ExitCode::from(run(arguments, &mut streams))
}
