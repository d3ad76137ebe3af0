// SPDX-License-Identifier: Apache-2.0
//! The safe face of a handle: a pipeline, and what its calls answer. The calls about one span are in `span_calls`.
//!
//! What makes each call safe is the same: the handle is a valid one that nobody else uses, since it is borrowed for
//! writing; each text and list is borrowed from start to end of the call, which copies it; and each answer is written
//! to a variable of its type.

use super::declarations::{
    otel_after_fork, otel_close, otel_count, otel_drain_some, otel_flush, otel_ignored_settings, otel_open, otel_run,
    otel_shutdown, otel_tracer,
};
use super::version::hold_version;
use super::{check, Counts, Held, RawHandle, TracerKey};
use crate::moment::Moment;
use crate::tracer::Library;
use crate::Error;
use std::mem::size_of;
use std::ptr::null_mut;

/// Room for lines, of which one is longer seldom.
const ROOM_OF_LINES: usize = 1 << 16;

/// A pipeline. It is closed when it is dropped, and cannot be copied.
pub struct Handle {
    pub(super) raw: RawHandle,
    is_shut_down: bool,
}

// SAFETY: a handle may move between threads, and is used by one call at a time, since each call borrows it for writing.
unsafe impl Send for Handle {}

impl Handle {
    pub fn open(settings: &str, seed: u64) -> Result<Self, Error> {
        hold_version()?;
        let raw = RawHandle { is_open: false, held: Held { at: null_mut() } };
        let mut handle = Self { raw, is_shut_down: false };
        // SAFETY: as above.
        check(unsafe { otel_open(&mut handle.raw, settings.as_ptr(), settings.len(), seed) })?;
        Ok(handle)
    }

    /// The names of the settings that were ignored, each with a line feed after it.
    pub fn ignored_settings(&mut self) -> Result<Vec<u8>, Error> {
        // SAFETY: as above; the buffer is as long as is said.
        filled(0, |buffer, length| unsafe {
            otel_ignored_settings(&mut self.raw, buffer.as_mut_ptr(), buffer.len(), length)
        })
    }

    pub fn tracer(&mut self, library: &Library<'_>) -> Result<TracerKey, Error> {
        let (name, version, schema_url) = (library.name, library.version, library.schema_url);
        let mut tracer = TracerKey::FIRST;
        // SAFETY: as above.
        check(unsafe {
            otel_tracer(
                &mut self.raw,
                name.as_ptr(),
                name.len(),
                version.as_ptr(),
                version.len(),
                schema_url.as_ptr(),
                schema_url.len(),
                &mut tracer,
            )
        })?;
        Ok(tracer)
    }

    pub fn flush(&mut self) -> Result<(), Error> {
        // SAFETY: as above.
        check(unsafe { otel_flush(&mut self.raw) })
    }

    pub fn run(&mut self, moment: Moment) -> Result<(), Error> {
        // SAFETY: as above.
        check(unsafe { otel_run(&mut self.raw, moment.nanoseconds()) })
    }

    /// The lines that were exported, all but where an error says that some are left.
    pub fn drain(&mut self) -> (Vec<u8>, Result<(), Error>) {
        let mut lines = Vec::new();
        loop {
            let before = lines.len();
            let drained = self.drain_onto(&mut lines);
            lines.truncate(before + drained.as_ref().map_or(0, |length| *length));
            match drained {
                Ok(0) => return (lines, Ok(())),
                Ok(_) => (),
                Err(error) => return (lines, Err(error)),
            }
        }
    }

    /// Appends the oldest lines, and then any bytes; answers how long the lines are, 0 where none is left.
    fn drain_onto(&mut self, lines: &mut Vec<u8>) -> Result<usize, Error> {
        let (before, mut room) = (lines.len(), ROOM_OF_LINES);
        loop {
            grow(lines, before + room)?;
            let (buffer, mut length) = (&mut lines[before..], 0);
            // SAFETY: as above; the buffer is as long as is said.
            let status = unsafe { otel_drain_some(&mut self.raw, buffer.as_mut_ptr(), buffer.len(), &mut length) };
            match check(status) {
                Ok(()) => return Ok(length),
                Err(Error::BufferTooSmall) if length > room => room = length,
                Err(error) => return Err(error),
            }
        }
    }

    pub fn count(&mut self) -> Result<Counts, Error> {
        let mut counts = Counts::default();
        // SAFETY: as above.
        check(unsafe { otel_count(&mut self.raw, &mut counts, size_of::<Counts>()) })?;
        Ok(counts)
    }

    pub fn shutdown(&mut self) -> Result<(), Error> {
        // SAFETY: as above.
        let answer = check(unsafe { otel_shutdown(&mut self.raw) });
        self.is_shut_down |= matches!(answer, Ok(()) | Err(Error::Failed));
        answer
    }

    /// Goes on in a child process: without the spans and lines of the parent, and with another seed. No call was under
    /// way when the process forked.
    pub fn go_on_after_fork(&mut self, seed: u64) -> Result<(), Error> {
        // SAFETY: as above.
        check(unsafe { otel_after_fork(&mut self.raw, seed) })?;
        if self.is_shut_down {
            // It says that it failed where it is shut down still.
            let _is_shut = self.shutdown();
        }
        Ok(())
    }

    /// Lets all be that the handle owns: it is the parent's, where this process was made by a fork.
    pub fn disown(&mut self) {
        self.raw = RawHandle { is_open: false, held: Held { at: null_mut() } };
    }

    pub fn is_shut_down(&self) -> bool {
        self.is_shut_down
    }

    pub fn close(&mut self) -> Result<(), Error> {
        // SAFETY: as above.
        check(unsafe { otel_close(&mut self.raw) })
    }
}

impl Drop for Handle {
    fn drop(&mut self) {
        // An error says that it was closed before.
        let _is_closed = self.close();
    }
}

/// What a call writes to a buffer, which grows until it has room for all. The call is given the buffer and where it is
/// to say its length.
pub(super) fn filled(first_room: usize, mut call: impl FnMut(&mut [u8], &mut usize) -> u32) -> Result<Vec<u8>, Error> {
    let mut buffer = vec![0; first_room];
    loop {
        let mut length = 0;
        match check(call(&mut buffer, &mut length)) {
            Ok(()) => {
                buffer.truncate(length);
                return Ok(buffer);
            }
            Err(Error::BufferTooSmall) if length > buffer.len() => grow(&mut buffer, length)?,
            Err(error) => return Err(error),
        }
    }
}

/// Makes a buffer this long at least.
fn grow(buffer: &mut Vec<u8>, length: usize) -> Result<(), Error> {
    let more = length.saturating_sub(buffer.len());
    buffer.try_reserve(more).map_err(|_| Error::OutOfMemory)?;
    buffer.resize(buffer.len() + more, 0);
    Ok(())
}
