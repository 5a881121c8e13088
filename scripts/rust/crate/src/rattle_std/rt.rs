//! What a program has of the system.
use std::fs::File;
use std::io::{self, Read, Stderr, Stdin, Stdout, Write};

/// The system that a program runs on.
#[derive(Clone, Copy, Debug)]
pub struct HostRuntime;

impl HostRuntime {
    /// The standard input.
    pub fn stdin(&self) -> Stdin {
        std::io::stdin()
    }

    /// The standard output.
    pub fn stdout(&self) -> Stdout {
        std::io::stdout()
    }

    /// The standard error.
    pub fn stderr(&self) -> Stderr {
        std::io::stderr()
    }
}

/// A system with Rust's allocator.
pub trait AllocGlobal {}

impl AllocGlobal for HostRuntime {}

/// A system with files.
pub trait Files {
    /// An open file.
    type File: Read + Write;

    /// Opens a file for reading.
    fn open(&self, name: &str) -> io::Result<Self::File>;

    /// Opens a file for writing. A file that exists is emptied.
    fn create(&self, name: &str) -> io::Result<Self::File>;
}

impl Files for HostRuntime {
    type File = File;

    fn open(&self, name: &str) -> io::Result<File> {
        File::open(name)
    }

    fn create(&self, name: &str) -> io::Result<File> {
        File::create(name)
    }
}

/// Arguments of a program.
pub mod env {
    use super::HostRuntime;
    use std::io::{self, ErrorKind};
    use std::vec::IntoIter;

    /// Arguments in their order.
    pub type Args = IntoIter<String>;

    /// A system that gives a program arguments.
    pub trait Env {}

    impl Env for HostRuntime {}

    /// The arguments of the program. The first is its own name. An argument that is no UTF-8 is an
    /// error.
    pub fn args<R: Env>(_: &R) -> io::Result<Args> {
        let arguments: Result<Vec<String>, _> =
            std::env::args_os().map(|it| it.into_string()).collect();
        match arguments {
            Ok(arguments) => Ok(arguments.into_iter()),
            Err(_) => Err(ErrorKind::InvalidData.into()),
        }
    }
}

/// Files.
pub mod fs {
    use super::{Files, HostRuntime};
    pub use std::fs::{File, Metadata, OpenOptions};

    /// Opens a file for reading.
    pub fn open<R: Files>(rt: &R, name: &str) -> std::io::Result<R::File> {
        rt.open(name)
    }

    /// Opens a file for writing. A file that exists is emptied.
    pub fn create<R: Files>(rt: &R, name: &str) -> std::io::Result<R::File> {
        rt.create(name)
    }

    /// What the system says of a file, or of a link itself.
    pub fn symlink_metadata(_: &HostRuntime, name: &str) -> std::io::Result<Metadata> {
        std::fs::symlink_metadata(name)
    }

    /// Gives a file another name. A file that had that name is replaced.
    pub fn rename(_: &HostRuntime, old: &str, new: &str) -> std::io::Result<()> {
        std::fs::rename(old, new)
    }

    /// Copies a file, with its permissions, to one that may exist. Returns the number of bytes.
    pub fn copy(_: &HostRuntime, from: &str, to: &str) -> std::io::Result<u64> {
        std::fs::copy(from, to)
    }

    /// Removes a file.
    pub fn remove_file(_: &HostRuntime, name: &str) -> std::io::Result<()> {
        std::fs::remove_file(name)
    }
}

/// How a program ends.
pub mod process {
    pub use std::process::ExitCode;

    /// A system on which a program can end at once.
    pub trait Abort {}

    impl Abort for super::HostRuntime {}
}

/// Failures of tests.
pub mod test {
    /// Why a test fails.
    pub type Fail = Box<dyn std::error::Error>;

    /// A failure with this message.
    pub fn fail(message: &str) -> Fail {
        message.into()
    }
}

/// Counted references.
pub mod rc {
    use crate::rattle_std::alloc::AllocError;
    use std::rc::Rc;

    /// A value with a count of references.
    pub fn new<T>(value: T) -> Result<Rc<T>, AllocError> {
        Ok(Rc::new(value))
    }
}

/// Values in memory of their own.
pub mod boxed {
    use crate::rattle_std::alloc::AllocError;

    /// A value in memory of its own.
    pub fn new<T>(value: T) -> Result<Box<T>, AllocError> {
        Ok(Box::new(value))
    }
}
