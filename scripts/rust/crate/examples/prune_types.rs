//! Writes the module that its first argument names to the second, without the types that it does not use. It is refused
//! where sections describe other bytes that would change.
use ruffdresser::arena::HashKeys;
use ruffdresser::wasm::{NormaliseOptions, UnusedTypes, canonical_module};
use std::{env, error::Error, fs};

fn main() -> Result<(), Box<dyn Error>> {
    let arguments: Vec<String> = env::args().collect();
    let [_, input, output] = arguments.as_slice() else {
        return Err("give the names of two files".into());
    };
    let bytes = fs::read(input)?;
    let options = NormaliseOptions { unused: UnusedTypes::Deleted, ..NormaliseOptions::default() };
    let module = canonical_module(HashKeys::random()?, &bytes, options)?;
    println!("{} of {} bytes are left", module.len(), bytes.len());
    fs::write(output, module)?;
    Ok(())
}
