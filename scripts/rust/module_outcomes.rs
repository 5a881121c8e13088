//! Prints what becomes of modules. Each line of the standard input is a module in hexadecimal, behind
//! `keep ` if widths are kept, and behind `prune ` if unused types are deleted. Each line of the output
//! is the exit status that `wasmnorm` has for it, and the new module, or `panic`. At the end is the
//! first fault of the module, if it has one.
use ruffdresser::arena::HashKeys;
use ruffdresser::wasm::{
    DecodeError, Descriptions, NormaliseModuleError, NormaliseOptions, RenameError, UnusedTypes,
    Widths, canonical_module, check_module, section_around, sections,
};
use std::error::Error;
use std::io::{self, BufWriter, Write};
use std::panic::catch_unwind;

/// How many types the modules have when their first fault is asked for. It is the same for all, and
/// some of them name types from it on.
const TYPES: u32 = 2;

fn main() -> Result<(), Box<dyn Error>> {
    let mut out = BufWriter::new(io::stdout().lock());
    for line in io::stdin().lines() {
        let line = line?;
        let (line, widths) = match line.strip_prefix("keep ") {
            Some(rest) => (rest, Widths::Kept),
            None => (line.as_str(), Widths::Shortest),
        };
        let (module, unused) = match line.strip_prefix("prune ") {
            Some(module) => (module, UnusedTypes::Deleted),
            None => (line, UnusedTypes::Kept),
        };
        let options = NormaliseOptions {
            widths,
            descriptions: Descriptions::Kept,
            unused,
        };
        let module = bytes(module)?;
        writeln!(out, "{}{}", outcome(&module, options), first_fault(&module))?;
    }
    Ok(out.flush()?)
}

fn bytes(text: &str) -> Result<Vec<u8>, Box<dyn Error>> {
    let digits = text.as_bytes().chunks(2);
    digits
        .map(|pair| Ok(u8::from_str_radix(str::from_utf8(pair)?, 16)?))
        .collect()
}

fn outcome(module: &[u8], options: NormaliseOptions) -> String {
    match catch_unwind(|| canonical_module(HashKeys::fixed(), module, options)) {
        Ok(Ok(new)) => format!("0 {}", hexadecimal(&new)),
        Ok(Err(error)) => status(error).to_string(),
        Err(_) => String::from("panic"),
    }
}

fn hexadecimal(bytes: &[u8]) -> String {
    bytes.iter().map(|byte| format!("{byte:02x}")).collect()
}

fn status(error: NormaliseModuleError) -> u8 {
    match error {
        NormaliseModuleError::BadIndex { .. }
        | NormaliseModuleError::TooMany
        | NormaliseModuleError::UnknownType { .. } => 2,
        NormaliseModuleError::Memory => 3,
        _ => 1,
    }
}

fn first_fault(module: &[u8]) -> String {
    let Some(front) = sections_before_break(module) else {
        return String::new();
    };
    match catch_unwind(|| check_module(front, TYPES)) {
        Ok(Err(RenameError::Malformed { offset })) => format!(", malformed at {offset}"),
        Ok(Err(RenameError::UnknownType { index, offset })) => {
            format!(", no type {index} at {offset}")
        }
        Ok(Err(error)) => format!(", {error}"),
        Ok(Ok(())) => String::new(),
        Err(_) => String::from(", panic"),
    }
}

/// The module, or where a section breaks its framing, what is before this section.
fn sections_before_break(module: &[u8]) -> Option<&[u8]> {
    match sections(module) {
        Ok(_) => Some(module),
        Err(DecodeError::Malformed { offset, .. }) => {
            Some(&module[..section_around(module, offset)?.offset])
        }
        Err(_) => None,
    }
}
