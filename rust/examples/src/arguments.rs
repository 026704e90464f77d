//! The arguments of the programs: options, and words without a name.

use sengadlit::{Direction, Script};
use std::collections::HashMap;
use std::error::Error;

/// Options that take a value, flags that don't, and the rest in order.
pub struct Arguments {
    options: HashMap<String, String>,
    flags: Vec<String>,
    pub rest: Vec<String>,
}

impl Arguments {
    /// Reads the program's arguments, of which `with_value` names the options that take a value.
    ///
    /// # Errors
    ///
    /// The value of an option is missing.
    pub fn read(with_value: &[&str]) -> Result<Self, Box<dyn Error>> {
        let (mut options, mut flags, mut rest) = (HashMap::new(), vec![], vec![]);
        let mut arguments = std::env::args().skip(1);
        while let Some(argument) = arguments.next() {
            if with_value.contains(&argument.as_str()) {
                let value = arguments.next().ok_or(format!("{argument} has no value"))?;
                options.insert(argument, value);
            } else if argument.starts_with("--") {
                flags.push(argument);
            } else {
                rest.push(argument);
            }
        }
        Ok(Arguments {
            options,
            flags,
            rest,
        })
    }

    pub fn option(&self, name: &str) -> Option<&str> {
        self.options.get(name).map(String::as_str)
    }

    pub fn has(&self, flag: &str) -> bool {
        self.flags.iter().any(|other| other == flag)
    }

    /// The script that `--script` names, or that of a text's first letter; and the script's direction, or
    /// that which `--direction` names.
    ///
    /// # Errors
    ///
    /// An option names none, or the text has no letter of a script and no option names it.
    pub fn script(&self, text: &str) -> Result<(Script, Direction), Box<dyn Error>> {
        let script = match self.option("--script") {
            Some(code) => code.parse()?,
            None => text
                .chars()
                .find_map(Script::of_char)
                .ok_or("--script names the text's script, such as Khmr")?,
        };
        let direction = self.option("--direction").map(str::parse).transpose()?;
        Ok((script, direction.unwrap_or(script.direction())))
    }
}
