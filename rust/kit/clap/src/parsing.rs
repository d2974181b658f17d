use crate::error::{Error, ErrorKind};
use crate::help::Used;
use crate::similar::most_alike;
use crate::{Arg, Command};
use fallible::{AllocError, AsStr, Vec};

const HELP: &str = "help";

/// The values that words give to options.
#[derive(Debug)]
pub struct ArgMatches<'a> {
    // Each option's id and value.
    values: Vec<(&'a str, &'a str)>,
}

impl<'a> ArgMatches<'a> {
    /// An option's value.
    pub fn get_str(&self, id: &str) -> Option<&'a str> {
        let found = self.values.iter().find(|(known, _)| *known == id)?;
        Some(found.1)
    }
}

struct Parser<'c, 'a> {
    command: &'c Command<'a>,
    found: ArgMatches<'a>,
    // The option whose value is a word of its own, and that word if it came: it counts once something else comes.
    pending: Option<(Arg<'a>, Option<&'a str>)>,
}

impl<'a> Parser<'_, 'a> {
    fn arg(&self, long: &str) -> Option<Arg<'a>> {
        self.command
            .args
            .iter()
            .find(|arg| arg.long == long)
            .copied()
    }

    // The options that have a value by now, and one more where they don't have it.
    fn used(&self, more: Option<Used<'a>>) -> Result<Vec<Used<'a>>, AllocError> {
        let mut used = Vec::new(self.command.alloc);
        for (id, _) in &self.found.values {
            if let Some(arg) = self.command.args.iter().find(|arg| arg.id == *id) {
                used.push(Used::Arg(*arg))?;
            }
        }
        match more {
            Some(Used::Arg(arg)) if self.found.get_str(arg.id).is_some() => {}
            Some(more) => used.push(more)?,
            None => {}
        }
        Ok(used)
    }

    fn unexpected<T>(&self, word: &str) -> Result<T, Error> {
        Err(self.command.fault(
            ErrorKind::UnknownArgument,
            format_args!("unexpected argument '{word}' found"),
            &[],
        )?)
    }

    // A word behind two hyphens that is no option; it may be like one.
    fn unexpected_long<T>(&mut self, name: &str) -> Result<T, Error> {
        let _ = self.end_pending();
        let longs = self.command.args.iter().map(|arg| arg.long).chain([HELP]);
        let Some(like) = most_alike(self.command.alloc, name, longs)? else {
            return Err(self.command.fault(
                ErrorKind::UnknownArgument,
                format_args!("unexpected argument '--{name}' found"),
                &self.used(None)?,
            )?);
        };
        let used = self.used(Some(self.arg(like).map_or(Used::Help, Used::Arg)))?;
        Err(self.command.fault(ErrorKind::UnknownArgument, format_args!("unexpected argument '--{name}' found\n\n  tip: a similar argument exists: '--{like}'"), &used)?)
    }

    // The option that came last counts now.
    fn end_pending(&mut self) -> Result<(), Error> {
        match self.pending.take() {
            Some((arg, Some(value))) => self.set(&arg, value),
            Some((arg, None)) => Err(self.command.lacks_value(&arg)?),
            None => Ok(()),
        }
    }

    fn set(&mut self, arg: &Arg<'a>, value: &'a str) -> Result<(), Error> {
        if self.found.get_str(arg.id).is_some() {
            return Err(self.command.fault(
                ErrorKind::ArgumentConflict,
                format_args!("the argument '{arg}' cannot be used multiple times"),
                &[],
            )?);
        }
        self.found
            .values
            .push((arg.id, value))
            .map_err(AllocError::from)?;
        Ok(())
    }

    fn take_help(&mut self, value: Option<&str>) -> Result<(), Error> {
        if let Some(value) = value {
            return Err(self.command.fault(
                ErrorKind::TooManyValues,
                format_args!(
                    "unexpected value '{value}' for '--help' found; no more were expected"
                ),
                &self.used(Some(Used::Help))?,
            )?);
        }
        self.end_pending()?;
        Err(self.command.help()?)
    }

    // A word behind two hyphens.
    fn take_long(&mut self, word: &'a str) -> Result<(), Error> {
        let (name, value) = match word.split_once('=') {
            Some((name, value)) => (name, Some(value)),
            None => (word, None),
        };
        if name == HELP {
            return self.take_help(value);
        }
        let Some(arg) = self.arg(name) else {
            return self.unexpected_long(name);
        };
        self.end_pending()?;
        match value {
            Some(value) => self.set(&arg, value),
            None => {
                self.pending = Some((arg, None));
                Ok(())
            }
        }
    }

    // Letters behind one hyphen.
    fn take_short(&mut self, letters: &str) -> Result<(), Error> {
        match letters.chars().next() {
            Some('h') => self.take_help(None),
            Some(letter) => self.unexpected(&fallible::format!(self.command.alloc, "-{letter}")?),
            None => Ok(()),
        }
    }

    fn take(&mut self, word: &'a str) -> Result<(), Error> {
        if let Some(long) = word.strip_prefix("--") {
            return self.take_long(long);
        }
        match word.strip_prefix('-') {
            Some(letters) if !letters.is_empty() => self.take_short(letters),
            _ => match &mut self.pending {
                Some((_, value @ None)) => {
                    *value = Some(word);
                    Ok(())
                }
                _ => self.unexpected(word),
            },
        }
    }
}

/// The options of these words, of which the first is the program's name.
pub(crate) fn parse<'a, S: AsStr>(
    command: &Command<'a>,
    words: &'a [S],
) -> Result<ArgMatches<'a>, Error> {
    let mut parser = Parser {
        command,
        found: ArgMatches {
            values: Vec::new(command.alloc),
        },
        pending: None,
    };
    let mut words = words.iter().skip(1).map(S::as_str);
    while let Some(word) = words.next() {
        if word == "--" {
            // What follows is no option.
            if let Some(word) = words.next() {
                return parser.unexpected(word);
            }
            break;
        }
        parser.take(word)?;
    }
    parser.end_pending()?;
    let mut found = parser.found;
    for arg in &command.args {
        if let (Some(value), None) = (arg.default, found.get_str(arg.id)) {
            found
                .values
                .push((arg.id, value))
                .map_err(AllocError::from)?;
        }
    }
    Ok(found)
}
