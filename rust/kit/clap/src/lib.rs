//! A command line of options with a value each, by the calls that are used here of the crate of this name, and in its words.
#![forbid(unsafe_code)]

pub mod error;
mod help;
mod parsing;
mod similar;

pub use error::Error;
pub use parsing::ArgMatches;

use error::ErrorKind;
use fallible::{AllocError, AsStr, Global, Vec};

/// An option with a value.
#[derive(Clone, Copy, Debug)]
pub struct Arg<'a> {
    pub(crate) id: &'a str,
    pub(crate) long: &'a str,
    pub(crate) value_name: &'a str,
    pub(crate) default: Option<&'a str>,
    pub(crate) help: &'a str,
}

impl<'a> Arg<'a> {
    /// An option that is found under this id.
    pub fn new(_alloc: Global, id: &'a str) -> Arg<'a> {
        Arg {
            id,
            long: id,
            value_name: id,
            default: None,
            help: "",
        }
    }

    /// Its name behind two hyphens.
    pub fn long(self, long: &'a str) -> Arg<'a> {
        Arg { long, ..self }
    }

    /// What its value is called.
    pub fn value_name(self, value_name: &'a str) -> Arg<'a> {
        Arg { value_name, ..self }
    }

    /// Its value where none is given.
    pub fn default_value(self, value: &'a str) -> Arg<'a> {
        Arg {
            default: Some(value),
            ..self
        }
    }

    /// What it is for.
    pub fn help(self, help: &'a str) -> Arg<'a> {
        Arg { help, ..self }
    }
}

/// A program with its options.
#[derive(Debug)]
pub struct Command<'a> {
    pub(crate) alloc: Global,
    pub(crate) name: &'a str,
    pub(crate) about: &'a str,
    pub(crate) args: Vec<Arg<'a>>,
}

impl<'a> Command<'a> {
    /// A program without options of its own.
    pub fn new(alloc: Global, name: &'a str) -> Command<'a> {
        Command {
            alloc,
            name,
            about: "",
            args: Vec::new(alloc),
        }
    }

    /// What it is for.
    pub fn about(self, about: &'a str) -> Command<'a> {
        Command { about, ..self }
    }

    /// One option more.
    pub fn arg(mut self, arg: Arg<'a>) -> Result<Command<'a>, AllocError> {
        self.args.push(arg)?;
        Ok(self)
    }

    /// The options of these words, of which the first is the program's name.
    pub fn try_get_matches_from_mut<S: AsStr>(
        &mut self,
        words: &'a [S],
    ) -> Result<ArgMatches<'a>, Error> {
        parsing::parse(self, words)
    }

    /// An error of this kind, in these words.
    pub fn error(&mut self, kind: ErrorKind, message: &str) -> Result<Error, AllocError> {
        self.fault(kind, format_args!("{message}"), &[])
    }
}
