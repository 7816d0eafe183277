//! What a program prints, line by line. Where it cannot be written the program ends, with one line that says so.

use std::fmt::Arguments;
use std::io::{self, Write};

pub fn line(program: &str, text: Arguments) {
    if let Err(error) = writeln!(io::stdout(), "{text}") {
        let _ = writeln!(io::stderr(), "{program}: standard output: {error}");
        std::process::exit(2);
    }
}

macro_rules! say {
    ($($words:tt)*) => {
        crate::say::line(crate::NAME, format_args!($($words)*))
    };
}
