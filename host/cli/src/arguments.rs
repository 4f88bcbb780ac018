//! The command line: options and names.

use crate::console::When;
use std::collections::VecDeque;
use std::ffi::{OsStr, OsString};
use std::os::unix::ffi::OsStrExt;

/// An option that a command knows.
pub struct Known {
    /// Its name, with the two hyphens.
    pub name: &'static str,
    /// Whether a value follows it.
    pub has_value: bool,
}

/// An option without a value.
pub const fn flag(name: &'static str) -> Known {
    Known { name, has_value: false }
}

/// An option with a value.
pub const fn valued(name: &'static str) -> Known {
    Known { name, has_value: true }
}

/// The arguments of a command.
#[derive(Debug, Default)]
pub struct Arguments {
    options: Vec<(&'static str, OsString)>,
    names: VecDeque<OsString>,
}

/// Options that every command knows.
const COMMON: [Known; 2] = [flag("--help"), valued("--color")];

impl Arguments {
    /// Reads the arguments of a command that knows these options. `--` ends the options; `-` alone is a name.
    pub fn read(args: Vec<OsString>, known: &[Known]) -> Result<Arguments, String> {
        let mut read = Arguments::default();
        let mut args = args.into_iter();
        while let Some(arg) = args.next() {
            let shown = arg.to_string_lossy().into_owned();
            if shown == "--" {
                read.names.extend(args.by_ref());
            } else if shown == "-h" {
                read.option(OsStr::new("--help"), &mut args, known)?;
            } else if shown.starts_with("--") {
                read.option(&arg, &mut args, known)?;
            } else if shown.starts_with('-') && shown != "-" {
                return Err(format!("{shown}: no such option"));
            } else {
                read.names.push_back(arg);
            }
        }
        Ok(read)
    }

    /// Reads an option, as `--name`, `--name VALUE` or `--name=VALUE`.
    fn option(
        &mut self,
        arg: &OsStr,
        args: &mut impl Iterator<Item = OsString>,
        known: &[Known],
    ) -> Result<(), String> {
        let mut parts = arg.as_bytes().splitn(2, |&byte| byte == b'=').map(OsStr::from_bytes);
        let name = parts.next().unwrap_or(arg).to_string_lossy();
        let beside = parts.next();
        let mut all = known.iter().chain(&COMMON);
        let option = all.find(|k| k.name == name).ok_or(format!("{name}: no such option"))?;
        let value = match (option.has_value, beside) {
            (false, None) => OsString::new(),
            (false, Some(_)) => return Err(format!("{name}: takes no value")),
            (true, Some(value)) => value.into(),
            (true, None) => args.next().ok_or(format!("{name}: no value"))?,
        };
        if self.value(option.name).is_some() {
            return Err(format!("{name}: given twice"));
        }
        self.options.push((option.name, value));
        Ok(())
    }

    /// The value of an option, if it is given.
    pub fn value(&self, name: &str) -> Option<&OsStr> {
        self.options.iter().find(|(known, _)| *known == name).map(|(_, value)| value.as_os_str())
    }

    /// Whether an option is given.
    pub fn has(&self, name: &str) -> bool {
        self.value(name).is_some()
    }

    /// When there are colours.
    pub fn when(&self) -> Result<When, String> {
        match self.value("--color").map(|value| value.to_string_lossy()).as_deref() {
            None | Some("auto") => Ok(When::Auto),
            Some("always") => Ok(When::Always),
            Some("never") => Ok(When::Never),
            Some(other) => Err(format!("--color {other}: not auto, always or never")),
        }
    }

    /// The next name; `what` says what it is for where there is none.
    pub fn take(&mut self, what: &str) -> Result<OsString, String> {
        self.names.pop_front().ok_or(format!("{what} is missing"))
    }

    /// The names that are left.
    pub fn rest(&mut self) -> Vec<OsString> {
        self.names.drain(..).collect()
    }

    /// No name is left.
    pub fn end(&mut self) -> Result<(), String> {
        match self.names.pop_front() {
            Some(name) => Err(format!("{}: one name too many", name.to_string_lossy())),
            None => Ok(()),
        }
    }
}
