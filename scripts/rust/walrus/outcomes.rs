//! Reads modules, and prints what walrus writes of them: a line for each, with the outcome as it is read and after
//! `gc`. The lines of its input name the files.
use std::hash::{DefaultHasher, Hash, Hasher};
use std::io::{self, BufRead};
use std::panic::{self, AssertUnwindSafe};

fn written(bytes: &[u8], is_collected: bool) -> Option<Vec<u8>> {
    let mut module = walrus::Module::from_buffer(bytes).ok()?;
    if is_collected {
        walrus::passes::gc::run(&mut module);
    }
    Some(module.emit_wasm())
}

fn outcome(bytes: &[u8], is_collected: bool) -> String {
    match panic::catch_unwind(AssertUnwindSafe(|| written(bytes, is_collected))) {
        Ok(Some(out)) => {
            let mut hasher = DefaultHasher::new();
            out.hash(&mut hasher);
            format!("{} bytes with hash {:x}", out.len(), hasher.finish())
        }
        Ok(None) => "rejected".into(),
        Err(_) => "a panic".into(),
    }
}

fn main() -> io::Result<()> {
    panic::set_hook(Box::new(|_| ()));
    for path in io::stdin().lock().lines() {
        let bytes = std::fs::read(path?)?;
        println!("{}; {}", outcome(&bytes, false), outcome(&bytes, true));
    }
    Ok(())
}
