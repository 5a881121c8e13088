//! Streams.
use std::io::{self, BufWriter, Write};

/// A writer that collects what it is given, and writes much at once.
pub fn buf_writer<W: Write>(writer: W) -> io::Result<BufWriter<W>> {
    Ok(BufWriter::new(writer))
}
