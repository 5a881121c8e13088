//! Prints the canonical forms of type sections. Each line of the standard input is a section as
//! `typenorm` reads it, with `;` for the end of a line, and behind `|` the roots, or `all`. Each line
//! of the output is its canonical form, and the new index of each type, or `-`.
use ruffdresser::arena::HashKeys;
use ruffdresser::text::{read_section, write_section};
use ruffdresser::types::canonicalise;
use std::error::Error;
use std::io::{self, BufWriter, Write};

fn main() -> Result<(), Box<dyn Error>> {
    let keys = HashKeys::random()?;
    let mut out = BufWriter::new(io::stdout().lock());
    for line in io::stdin().lines() {
        writeln!(out, "{}", form(keys, &line?)?)?;
    }
    Ok(out.flush()?)
}

fn form(keys: HashKeys, line: &str) -> Result<String, Box<dyn Error>> {
    let (text, roots) = line.split_once('|').ok_or("no roots")?;
    let groups = read_section(&mut text.replace(';', "\n").as_bytes())?;
    let roots: Option<Vec<u32>> = match roots {
        "all" => None,
        _ => Some(
            roots
                .split_whitespace()
                .map(str::parse)
                .collect::<Result<_, _>>()?,
        ),
    };
    let (canonical, map) = canonicalise(keys, groups, roots.as_deref())?;
    let mut written = Vec::new();
    write_section(&mut written, &canonical)?;
    let text = String::from_utf8(written)?.trim_end().replace('\n', ";");
    let map: Vec<String> = map
        .iter()
        .map(|it| it.map_or("-".into(), |it| it.to_string()))
        .collect();
    Ok(format!("{text}|{}", map.join(" ")))
}
