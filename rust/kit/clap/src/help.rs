use crate::error::{Error, ErrorKind};
use crate::{Arg, Command};
use fallible::{AllocError, String};
use std::fmt::{self, Write};

const HELP: &str = "-h, --help";

// How the program is used, with these options where there are any.
struct Usage<'a>(&'a str, &'a [Used<'a>]);

impl fmt::Display for Usage<'_> {
    fn fmt(&self, f: &mut fmt::Formatter<'_>) -> fmt::Result {
        write!(f, "Usage: {}", self.0)?;
        if self.1.is_empty() {
            return f.write_str(" [OPTIONS]");
        }
        self.1.iter().try_for_each(|used| write!(f, " {used}"))
    }
}

/// An option that words have.
#[derive(Clone, Copy, Debug)]
pub(crate) enum Used<'a> {
    Arg(Arg<'a>),
    Help,
}

impl fmt::Display for Used<'_> {
    fn fmt(&self, f: &mut fmt::Formatter<'_>) -> fmt::Result {
        match self {
            Used::Arg(arg) => write!(f, "{arg}"),
            Used::Help => f.write_str("--help"),
        }
    }
}

impl fmt::Display for Arg<'_> {
    fn fmt(&self, f: &mut fmt::Formatter<'_>) -> fmt::Result {
        write!(f, "--{} <{}>", self.long, self.value_name)
    }
}

impl Arg<'_> {
    fn width(&self) -> usize {
        "    --".len() + self.long.len() + " <>".len() + self.value_name.len()
    }
}

impl Command<'_> {
    /// A fault in these words, with how the program is used, with these options where there are any.
    pub(crate) fn fault(
        &self,
        kind: ErrorKind,
        words: fmt::Arguments<'_>,
        used: &[Used<'_>],
    ) -> Result<Error, AllocError> {
        let usage = Usage(self.name, used);
        let text = fallible::format!(
            self.alloc,
            "error: {words}\n\n{usage}\n\nFor more information, try '--help'.\n"
        )?;
        Ok(Error::new(kind, text))
    }

    /// An option that has no value.
    pub(crate) fn lacks_value(&self, arg: &Arg<'_>) -> Result<Error, AllocError> {
        let text = fallible::format!(
            self.alloc,
            "error: a value is required for '{arg}' but none was supplied\n\nFor more information, try '--help'.\n"
        )?;
        Ok(Error::new(ErrorKind::InvalidValue, text))
    }

    /// The program's help.
    pub(crate) fn help(&self) -> Result<Error, AllocError> {
        let mut text = String::new(self.alloc);
        self.write_help(&mut text).map_err(|_| AllocError)?;
        Ok(Error::new(ErrorKind::DisplayHelp, text))
    }

    fn write_help(&self, text: &mut String) -> fmt::Result {
        let width = self
            .args
            .iter()
            .map(Arg::width)
            .max()
            .unwrap_or(0)
            .max(HELP.len());
        writeln!(
            text,
            "{}\n\n{}\n\nOptions:",
            self.about,
            Usage(self.name, &[])
        )?;
        for arg in &self.args {
            let gap = width - arg.width();
            write!(text, "      {arg}{:gap$}  {}", "", arg.help)?;
            if let Some(value) = arg.default {
                write!(text, " [default: {value}]")?;
            }
            writeln!(text)?;
        }
        writeln!(text, "  {HELP:width$}  Print help")
    }
}
