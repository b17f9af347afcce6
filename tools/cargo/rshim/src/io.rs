//! Input and output. The ends of the process have no buffers, since those of std take memory without asking.

use crate::alloc::{AllocError, Global};
use crate::env::HostRuntime;
use crate::{String, Vec};
pub use std::io::*;

/// One of the three ends of the process, which is never closed.
#[derive(Debug)]
pub struct End(Inner);

#[cfg(unix)]
type Inner = std::mem::ManuallyDrop<std::fs::File>;

#[cfg(unix)]
impl End {
    fn of(number: std::os::fd::RawFd) -> End {
        use std::os::fd::FromRawFd;
        // SAFETY: the ends of a process are there while it runs, and `ManuallyDrop` keeps this one from being closed.
        let file = unsafe { std::fs::File::from_raw_fd(number) };
        End(std::mem::ManuallyDrop::new(file))
    }

    /// Standard input.
    pub(crate) fn stdin() -> End {
        End::of(0)
    }

    /// Standard output.
    pub(crate) fn stdout() -> End {
        End::of(1)
    }

    /// Standard error.
    pub(crate) fn stderr() -> End {
        End::of(2)
    }
}

#[cfg(unix)]
impl Read for End {
    fn read(&mut self, buffer: &mut [u8]) -> Result<usize> {
        self.0.read(buffer)
    }
}

#[cfg(unix)]
impl Write for End {
    fn write(&mut self, bytes: &[u8]) -> Result<usize> {
        self.0.write(bytes)
    }

    fn flush(&mut self) -> Result<()> {
        Ok(())
    }
}

impl End {
    /// Puts all bytes that are left behind those of a vector, and gives how many there were.
    ///
    /// # Errors
    /// A read failed, or there was no memory. Bytes that came before that stay in the vector.
    pub fn read_to_end(&mut self, bytes: &mut Vec<u8>) -> Result<usize> {
        let before = bytes.len();
        let mut part = [0; ROOM];
        loop {
            match self.read(&mut part) {
                Ok(0) => return Ok(bytes.len() - before),
                Ok(count) => bytes.extend_from_slice(&part[..count])?,
                Err(error) if error.kind() == ErrorKind::Interrupted => {}
                Err(error) => return Err(error),
            }
        }
    }
}

#[cfg(not(unix))]
#[derive(Debug)]
enum Inner {
    In(Stdin),
    Out(Stdout),
    Err(Stderr),
}

#[cfg(not(unix))]
impl End {
    /// Standard input.
    pub(crate) fn stdin() -> End {
        End(Inner::In(stdin()))
    }

    /// Standard output.
    pub(crate) fn stdout() -> End {
        End(Inner::Out(stdout()))
    }

    /// Standard error.
    pub(crate) fn stderr() -> End {
        End(Inner::Err(stderr()))
    }
}

#[cfg(not(unix))]
impl Read for End {
    fn read(&mut self, buffer: &mut [u8]) -> Result<usize> {
        match &mut self.0 {
            Inner::In(end) => end.read(buffer),
            _ => Err(ErrorKind::Unsupported.into()),
        }
    }
}

#[cfg(not(unix))]
impl Write for End {
    fn write(&mut self, bytes: &[u8]) -> Result<usize> {
        match &mut self.0 {
            Inner::Out(end) => end.write(bytes),
            Inner::Err(end) => end.write(bytes),
            Inner::In(_) => Err(ErrorKind::Unsupported.into()),
        }
    }

    fn flush(&mut self) -> Result<()> {
        match &mut self.0 {
            Inner::Out(end) => end.flush(),
            Inner::Err(end) => end.flush(),
            Inner::In(_) => Ok(()),
        }
    }
}

/// Standard output.
pub fn writer(rt: &HostRuntime) -> End {
    rt.stdout()
}

/// How many bytes a buffer holds.
const ROOM: usize = 8192;

/// A reader with a buffer, whose lines and parts are asked for one by one.
#[derive(Debug)]
pub struct BufReader<R> {
    inner: R,
    buffer: Vec<u8>,
    at: usize,
}

impl<R: Read> BufReader<R> {
    /// A reader with an empty buffer.
    ///
    /// # Errors
    /// There is no memory for the buffer.
    pub fn new(alloc: Global, inner: R) -> Result<BufReader<R>> {
        let buffer = Vec::with_capacity(alloc, ROOM)?;
        Ok(BufReader { inner, buffer, at: 0 })
    }

    /// The lines, without their ends.
    pub fn lines(self, alloc: Global) -> Lines<R> {
        Lines(self.split(alloc, b'\n'))
    }

    /// What stands between these bytes.
    pub fn split(self, alloc: Global, mark: u8) -> Split<R> {
        Split { alloc, reader: self, mark }
    }

    /// The bytes that are there, of which there are none at the end.
    fn filled(&mut self) -> Result<&[u8]> {
        if self.at == self.buffer.len() {
            let mut bytes = [0; ROOM];
            let count = loop {
                match self.inner.read(&mut bytes) {
                    Err(error) if error.kind() == ErrorKind::Interrupted => {}
                    answer => break answer?,
                }
            };
            self.buffer.clear();
            self.at = 0;
            self.buffer.extend_from_slice(&bytes[..count])?;
        }
        Ok(&self.buffer[self.at..])
    }

    /// The bytes up to a mark, and whether it is there.
    fn part(&mut self, alloc: Global, mark: u8) -> Result<(Vec<u8>, bool)> {
        let mut part = Vec::new(alloc);
        loop {
            let there = self.filled()?;
            let count = there.len();
            let end = there.iter().position(|&byte| byte == mark);
            part.extend_from_slice(&there[..end.unwrap_or(count)])?;
            self.at += end.map_or(count, |end| end + 1);
            if end.is_some() || count == 0 {
                return Ok((part, end.is_some()));
            }
        }
    }
}

/// The parts of a reader.
#[derive(Debug)]
pub struct Split<R> {
    alloc: Global,
    reader: BufReader<R>,
    mark: u8,
}

impl<R: Read> Iterator for Split<R> {
    type Item = Result<Vec<u8>>;

    fn next(&mut self) -> Option<Self::Item> {
        match self.reader.part(self.alloc, self.mark) {
            Ok((part, false)) if part.is_empty() => None,
            Ok((part, _)) => Some(Ok(part)),
            Err(error) => Some(Err(error)),
        }
    }
}

/// The lines of a reader.
#[derive(Debug)]
pub struct Lines<R>(Split<R>);

impl<R: Read> Iterator for Lines<R> {
    type Item = Result<String>;

    fn next(&mut self) -> Option<Self::Item> {
        match self.0.reader.part(self.0.alloc, self.0.mark) {
            Ok((part, false)) if part.is_empty() => None,
            Ok((part, has_end)) => Some(line_of(part, has_end)),
            Err(error) => Some(Err(error)),
        }
    }
}

/// The line that bytes are. A carriage return right before its end is part of that.
fn line_of(mut bytes: Vec<u8>, has_end: bool) -> Result<String> {
    if has_end && bytes.last() == Some(&b'\r') {
        bytes.pop();
    }
    String::from_utf8(bytes).map_err(|_| ErrorKind::InvalidData.into())
}

/// A writer with a buffer. What is in it has to be flushed.
#[derive(Debug)]
pub struct BufWriter<W: Write> {
    inner: W,
    buffer: Vec<u8>,
}

impl<W: Write> BufWriter<W> {
    /// A writer with an empty buffer.
    ///
    /// # Errors
    /// There is no memory for the buffer.
    pub fn new(alloc: Global, inner: W) -> Result<BufWriter<W>> {
        let buffer = Vec::with_capacity(alloc, ROOM)?;
        Ok(BufWriter { inner, buffer })
    }
}

impl<W: Write> Write for BufWriter<W> {
    fn write(&mut self, bytes: &[u8]) -> Result<usize> {
        if self.buffer.len() + bytes.len() > ROOM {
            self.flush()?;
        }
        if bytes.len() > ROOM {
            return self.inner.write(bytes);
        }
        self.buffer.extend_from_slice(bytes).map_err(|error: AllocError| Error::from(error))?;
        Ok(bytes.len())
    }

    fn flush(&mut self) -> Result<()> {
        self.inner.write_all(&self.buffer)?;
        self.buffer.clear();
        self.inner.flush()
    }
}

#[cfg(test)]
mod tests {
    use super::*;

    fn lines(text: &str) -> Result<std::vec::Vec<std::string::String>> {
        let reader = BufReader::new(Global, text.as_bytes())?;
        reader.lines(Global).map(|line| Ok(line?.into_std())).collect()
    }

    #[test]
    fn lines_are_those_of_std() -> Result<()> {
        for text in ["", "a", "a\n", "\n", "a\n\nb", "a\r\nb\r\n", "\r"] {
            let wanted: std::vec::Vec<_> = text.as_bytes().lines().collect::<Result<_>>()?;
            assert_eq!(lines(text)?, wanted, "{text:?}");
        }
        Ok(())
    }

    #[test]
    fn a_long_line_is_one() -> Result<()> {
        let long = "x".repeat(3 * ROOM + 1);
        assert_eq!(lines(&std::format!("{long}\ny"))?, [long.as_str(), "y"]);
        Ok(())
    }

    #[test]
    fn what_is_written_comes_out_in_order() -> Result<()> {
        let mut out = std::vec::Vec::new();
        let mut writer = BufWriter::new(Global, &mut out)?;
        for number in 0..4000 {
            write!(writer, "{number},")?;
        }
        writer.write_all(&[b'z'; 2 * ROOM])?;
        writer.flush()?;
        drop(writer);
        let head: std::string::String = (0..4000).map(|number| std::format!("{number},")).collect();
        assert!(out.starts_with(head.as_bytes()));
        assert_eq!(out.len(), head.len() + 2 * ROOM);
        Ok(())
    }
}
