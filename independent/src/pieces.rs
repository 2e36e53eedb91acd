//! Input that is taken as it comes, in bounded memory.

use std::io::{self, ErrorKind, Read};

/// Bytes that are read at a time.
pub const PIECE: usize = 1 << 16;

/// Reads what has come by now, as far as the buffer has room for it, and tells how many bytes came: none at the input's end.
pub fn next_piece(input: &mut impl Read, buffer: &mut [u8]) -> io::Result<usize> {
    loop {
        match input.read(buffer) {
            Err(error) if error.kind() == ErrorKind::Interrupted => {}
            done => return done,
        }
    }
}

#[cfg(test)]
pub(crate) mod testing {
    //! Inputs that come slowly, and outputs that are looked at meanwhile.

    use std::cell::RefCell;
    use std::io::{self, ErrorKind, Read, Write};

    /// Gives so many bytes a time, is interrupted before each, and fails at the end if told to.
    pub struct Trickle<'a> {
        pub bytes: &'a [u8],
        pub step: usize,
        pub fails: bool,
        pub interrupted: bool,
    }

    impl<'a> Trickle<'a> {
        pub fn new(bytes: &'a [u8], step: usize, fails: bool) -> Trickle<'a> {
            Trickle {
                bytes,
                step,
                fails,
                interrupted: false,
            }
        }
    }

    impl Read for Trickle<'_> {
        fn read(&mut self, buffer: &mut [u8]) -> io::Result<usize> {
            self.interrupted = !self.interrupted;
            if self.interrupted {
                return Err(ErrorKind::Interrupted.into());
            }
            if self.bytes.is_empty() && self.fails {
                return Err(ErrorKind::TimedOut.into());
            }
            let came = self.step.min(self.bytes.len()).min(buffer.len());
            let (now, later) = self.bytes.split_at(came);
            buffer[..came].copy_from_slice(now);
            self.bytes = later;
            Ok(came)
        }
    }

    /// What was written, and how much of it was flushed.
    #[derive(Default)]
    pub struct Watched(RefCell<(Vec<u8>, usize)>);

    impl Watched {
        fn flushed_lines(&self) -> usize {
            let (written, flushed) = &*self.0.borrow();
            let flushed = &written[..*flushed];
            flushed.iter().filter(|&&byte| byte == b'\n').count()
        }

        pub fn text(self) -> String {
            String::from_utf8(self.0.into_inner().0).unwrap()
        }
    }

    impl Write for &Watched {
        fn write(&mut self, bytes: &[u8]) -> io::Result<usize> {
            self.0.borrow_mut().0.extend(bytes);
            Ok(bytes.len())
        }

        fn flush(&mut self) -> io::Result<()> {
            let (written, flushed) = &mut *self.0.borrow_mut();
            *flushed = written.len();
            Ok(())
        }
    }

    /// Gives one piece a time, and notes how many lines were flushed before each and before the end.
    pub struct Watching<'a> {
        pub pieces: std::vec::IntoIter<&'a [u8]>,
        pub output: &'a Watched,
        pub lines: Vec<usize>,
    }

    impl<'a> Watching<'a> {
        pub fn new(pieces: Vec<&'a [u8]>, output: &'a Watched) -> Watching<'a> {
            Watching {
                pieces: pieces.into_iter(),
                output,
                lines: Vec::new(),
            }
        }
    }

    impl Read for Watching<'_> {
        fn read(&mut self, buffer: &mut [u8]) -> io::Result<usize> {
            self.lines.push(self.output.flushed_lines());
            let piece = self.pieces.next().unwrap_or_default();
            buffer[..piece.len()].copy_from_slice(piece);
            Ok(piece.len())
        }
    }
}
