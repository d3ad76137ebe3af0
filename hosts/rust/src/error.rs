// SPDX-License-Identifier: Apache-2.0
//! Why a call did not do what it was asked.

use std::error;
use std::fmt;

/// Why a call did not do what it was asked. Such a call changed nothing, unless its documentation says otherwise.
#[derive(Clone, Debug, PartialEq, Eq)]
#[non_exhaustive]
pub enum Error {
    /// The pipeline is closed.
    Closed,
    /// The handle is open already.
    AlreadyOpen,
    /// Memory ran out.
    OutOfMemory,
    /// No open span is meant: it never started, or has ended.
    NoSuchSpan,
    /// No tracer has this number.
    NoSuchTracer,
    /// A text is not UTF-8.
    NotUtf8,
    /// A kind, a status code or a list is none, or the headers of a link name no span.
    BadArgument,
    /// The buffer has too little room.
    BufferTooSmall,
    /// What was to be exported was not, or the pipeline is shut down.
    Failed,
    /// A status that the interface does not have.
    UnknownStatus(u32),
    /// A setting with this name cannot be handed on: the name is empty or has a `=`, or name or value is not one line.
    BadSetting(String),
    /// A moment before 1970, or after the year 2554.
    BadMoment,
    /// A parent or a linked span belongs to another pipeline.
    OtherPipeline,
    /// The pipeline is that of the parent process: this one was made by a fork, and opens its own.
    OtherProcess,
    /// The text of an error could not be made: its `Display` panicked, or answered an error.
    NoText,
    /// The library that was linked is of another version than this package was made for.
    OtherVersion { declared: [u32; 3], library: [u32; 3] },
}

impl fmt::Display for Error {
    fn fmt(&self, out: &mut fmt::Formatter<'_>) -> fmt::Result {
        out.write_str(match self {
            Self::Closed => "the pipeline is closed",
            Self::AlreadyOpen => "the handle is open already",
            Self::OutOfMemory => "out of memory",
            Self::NoSuchSpan => "there is no such open span",
            Self::NoSuchTracer => "there is no such tracer",
            Self::NotUtf8 => "a text is not UTF-8",
            Self::BadArgument => "an argument is outside what the call takes",
            Self::BufferTooSmall => "the buffer has too little room",
            Self::Failed => "not all was exported, or the pipeline is shut down",
            Self::UnknownStatus(status) => return write!(out, "the unknown status {status}"),
            Self::BadSetting(name) => return write!(out, "the setting {name:?} cannot be handed on"),
            Self::BadMoment => "a moment before 1970 or after 2554",
            Self::OtherPipeline => "a span of another pipeline",
            Self::OtherProcess => "the pipeline of another process",
            Self::NoText => "the text of an error could not be made",
            Self::OtherVersion { declared: [major, minor, _], library: [first, second, third] } => {
                let is = format_args!("libotel_c is of version {first}.{second}.{third}");
                return write!(out, "{is}, and this package is for {major}.{minor}");
            }
        })
    }
}

impl error::Error for Error {}

/// A pipeline that was closed, but could not export all that waited.
#[derive(Clone, Debug, PartialEq, Eq)]
pub struct CloseError {
    /// The lines of what was exported.
    pub lines: Vec<u8>,
    /// What went wrong.
    pub error: Error,
}

impl fmt::Display for CloseError {
    fn fmt(&self, out: &mut fmt::Formatter<'_>) -> fmt::Result {
        write!(out, "closed, with {} bytes of lines left: {}", self.lines.len(), self.error)
    }
}

impl error::Error for CloseError {
    fn source(&self) -> Option<&(dyn error::Error + 'static)> {
        Some(&self.error)
    }
}
