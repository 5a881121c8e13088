//! Texts.
use crate::rattle_std::alloc::AllocError;
use std::fmt::{self, Arguments, Write};

/// A copy of the text.
pub fn from_str(text: &str) -> Result<String, AllocError> {
    let mut copy = String::new();
    copy.try_push_str(text)?;
    Ok(copy)
}

/// The text that the arguments of `format!` make.
pub fn format(arguments: Arguments<'_>) -> Result<String, AllocError> {
    let mut text = String::new();
    match Refusable(&mut text).write_fmt(arguments) {
        Ok(()) => Ok(text),
        Err(_) => Err(AllocError),
    }
}

/// A text that grows only where memory is not refused.
struct Refusable<'a>(&'a mut String);

impl Write for Refusable<'_> {
    fn write_str(&mut self, text: &str) -> fmt::Result {
        self.0.try_push_str(text).map_err(|_| fmt::Error)
    }
}

/// Calls of `String` that return an error where memory is refused.
pub trait StringExt {
    /// Puts a text at the end. Where memory is refused the text is as it was.
    fn try_push_str(&mut self, text: &str) -> Result<(), AllocError>;

    /// Puts a character at the end. Where memory is refused the text is as it was.
    fn try_push(&mut self, character: char) -> Result<(), AllocError>;
}

impl StringExt for String {
    fn try_push_str(&mut self, text: &str) -> Result<(), AllocError> {
        self.try_reserve(text.len())?;
        self.push_str(text);
        Ok(())
    }

    fn try_push(&mut self, character: char) -> Result<(), AllocError> {
        self.try_push_str(character.encode_utf8(&mut [0; 4]))
    }
}

/// Printing that returns an error where memory is refused.
pub trait DisplayExt {
    /// The text that the value is printed as.
    fn try_to_string(&self) -> Result<String, AllocError>;
}

impl<T: fmt::Display + ?Sized> DisplayExt for T {
    fn try_to_string(&self) -> Result<String, AllocError> {
        format(format_args!("{self}"))
    }
}
