// SPDX-License-Identifier: Apache-2.0
//! A pipeline: spans go in, lines come out.

use crate::error::CloseError;
use crate::ffi::{Counts, Handle, Process, TracerKey};
use crate::lines::spans_in;
use crate::notices::About;
use crate::settings::{random_seed, Builder};
use crate::shared::{Drained, Follower, Shared};
use crate::tracer::{Library, Tracer};
use crate::Error;
use std::fmt;
use std::sync::{Arc, Weak};
use std::time::Instant;

/// A pipeline, which takes spans and hands out lines of the OpenTelemetry protocol's JSON. Its clones are the same
/// pipeline. One thread at a time is in a call of it or of its spans; others wait.
///
/// When the last clone is dropped the pipeline is closed, and lines that nobody drained are lost: [`Pipeline::close`]
/// hands out the last lines. Spans that are open then record nothing more.
///
/// In a process made by a fork it is the parent's: calls answer [`Error::OtherProcess`], or count it, spans record
/// nothing, and nothing is exported twice. The child calls [`Pipeline::after_fork`], or opens a pipeline of its own.
///
/// Spans that are lost have a notice, a line of text: the first that were dropped, the first that were exported and not
/// kept, and what was lost at the end; of each there is at most one a minute. See [`Pipeline::on_notice`].
///
/// ```
/// use otel_proved::{Kind, Pipeline};
///
/// # fn main() -> Result<(), otel_proved::Error> {
/// let pipeline = Pipeline::builder().setting("OTEL_SERVICE_NAME", "shop").open()?;
/// let tracer = pipeline.tracer("checkout");
/// let request = tracer.span("GET").kind(Kind::Server).attribute("url.path", "/cart").start();
/// let load = tracer.span("load cart").parent(&request).start();
/// load.end();
/// request.end();
/// pipeline.flush()?;
/// let lines = pipeline.drain()?;
/// assert!(lines.ends_with(b"\n"));
/// # Ok(())
/// # }
/// ```
#[derive(Clone)]
pub struct Pipeline {
    owner: Arc<Owner>,
}

/// Closes the pipeline, also while spans of it are open.
struct Owner {
    shared: Arc<Shared>,
    ignored_settings: Vec<String>,
}

impl Drop for Owner {
    fn drop(&mut self) {
        // An error says that it was closed before, or what look() has said.
        let (lines, open_spans, _is_closed) = self.shared.close();
        let lost = spans_in(&lines) + open_spans;
        if lost > 0 {
            let what = "spans that were open or not drained at the end, and are lost";
            self.shared.tell(About::End, format_args!("{what}: {lost}"));
        }
    }
}

impl Pipeline {
    /// Settings to open a pipeline with.
    pub fn builder() -> Builder {
        Builder::default()
    }

    pub(crate) fn new(handle: Handle, process: Process, ignored_settings: Vec<String>) -> Self {
        let shared = Arc::new(Shared::new(handle, process));
        Self { owner: Arc::new(Owner { shared, ignored_settings }) }
    }

    fn shared(&self) -> &Shared {
        &self.owner.shared
    }

    /// The names of the settings that were ignored, since nobody knows their name or their value does not read.
    pub fn ignored_settings(&self) -> &[String] {
        &self.owner.ignored_settings
    }

    /// A tracer for a library, which is a name or a [`Library`]. Where that fails the failure is counted, and the
    /// tracer is the one without a name.
    pub fn tracer<'a>(&self, library: impl Into<Library<'a>>) -> Tracer {
        let library = library.into();
        let key = self.shared().attempt(|handle| handle.tracer(&library));
        Tracer::new(Arc::clone(&self.owner.shared), key.unwrap_or(TracerKey::FIRST))
    }

    /// The same, but a failure is answered.
    pub fn try_tracer<'a>(&self, library: impl Into<Library<'a>>) -> Result<Tracer, Error> {
        let library = library.into();
        let key = self.shared().call(|handle| handle.tracer(&library))?;
        Ok(Tracer::new(Arc::clone(&self.owner.shared), key))
    }

    /// Exports what waits, into the lines that [`Pipeline::drain`] hands out.
    pub fn flush(&self) -> Result<(), Error> {
        self.shared().look_after(Handle::flush)
    }

    /// Exports what is due at this moment: what waits, once the schedule delay has passed. It goes by the clock of
    /// [`Instant`], which never goes back, and not by the one that spans begin and end by, which is set now and then.
    pub fn run_due(&self, now: Instant) -> Result<(), Error> {
        self.shared().run(now)
    }

    /// Hands out what was exported, and forgets it: whole lines, each with a line feed after it. Where memory runs out
    /// after some lines those are handed out, and the others by a later call.
    pub fn drain(&self) -> Result<Vec<u8>, Error> {
        match self.drain_all() {
            (lines, Err(error)) if lines.is_empty() => Err(error),
            (lines, _) => Ok(lines),
        }
    }

    pub(crate) fn drain_all(&self) -> Drained {
        self.shared().drain()
    }

    /// How many spans are where.
    pub fn counts(&self) -> Result<Counts, Error> {
        self.shared().call(Handle::count)
    }

    /// How many calls failed that answer no error: edits and ends of spans, and starts without `try_`.
    pub fn failed_calls(&self) -> u64 {
        self.shared().failures().count
    }

    /// Why the last of [`Pipeline::failed_calls`] failed.
    pub fn last_failure(&self) -> Option<Error> {
        self.shared().failures().last
    }

    /// How many spans were in the lines that [`Pipeline::close`] handed back.
    pub fn returned_spans(&self) -> u64 {
        self.shared().returned_spans()
    }

    /// Has notices go to a callback, and not to standard error, as lines without their ends; also those of senders. It
    /// is called in the middle of the work of any thread, and what it panics with goes no further.
    ///
    /// ```
    /// # fn main() -> Result<(), otel_proved::Error> {
    /// let pipeline = otel_proved::Pipeline::builder().open()?;
    /// pipeline.on_notice(|text| eprintln!("tracing: {text}"));
    /// # Ok(())
    /// # }
    /// ```
    pub fn on_notice(&self, callback: impl Fn(&str) + Send + Sync + 'static) {
        self.shared().set_notice(Arc::new(callback));
    }

    /// For the child of a fork: has the pipeline go on in it, without the spans and lines of the parent, with other ids
    /// and with counts that begin anew. Spans that were open are the parent's: calls of them count as failures. So is a
    /// sender: start another one. In a process that is no such child it does nothing.
    ///
    /// [`Error::OtherProcess`] where another thread was in the middle of a call at the fork. Then, and where the parent
    /// had closed it, the child opens a pipeline of its own.
    pub fn after_fork(&self) -> Result<(), Error> {
        self.shared().go_on_after_fork(random_seed())
    }

    /// Whose the pipeline is.
    pub(crate) fn process(&self) -> Process {
        self.shared().process()
    }

    pub(crate) fn say(&self, about: About, what: fmt::Arguments<'_>) {
        self.shared().tell(about, what);
    }

    pub(crate) fn follow(&self, follower: Weak<dyn Follower>) {
        self.shared().follow(follower);
    }

    /// Counts a failure that nobody is answered.
    pub(crate) fn note(&self, error: Error) {
        self.shared().note(error);
    }

    /// Exports what waits, and nothing afterwards. Lines can still be drained.
    pub fn shutdown(&self) -> Result<(), Error> {
        self.shared().look_after(Handle::shutdown)
    }

    /// Exports what waits, where it was not shut down before, hands out the last lines, and closes the pipeline for all
    /// its clones. Where not all is exported the error has the lines; where it was closed before there are none. Spans
    /// in them are counted by [`Pipeline::returned_spans`]; those that were open are lost, as a notice says.
    ///
    /// ```
    /// # fn main() -> Result<(), Box<dyn std::error::Error>> {
    /// let pipeline = otel_proved::Pipeline::builder().open()?;
    /// pipeline.tracer("checkout").span("GET").start().end();
    /// let lines = String::from_utf8(pipeline.close()?)?;
    /// assert!(lines.contains(r#""name":"GET""#));
    /// # Ok(())
    /// # }
    /// ```
    pub fn close(self) -> Result<Vec<u8>, CloseError> {
        let (lines, open_spans, closed) = self.shared().close();
        self.shared().returned(spans_in(&lines));
        if open_spans > 0 {
            let what = "spans that were open at the end, and are lost";
            self.shared().tell(About::End, format_args!("{what}: {open_spans}"));
        }
        match closed {
            Ok(()) => Ok(lines),
            Err(error) => Err(CloseError { lines, error }),
        }
    }
}

impl fmt::Debug for Pipeline {
    fn fmt(&self, out: &mut fmt::Formatter<'_>) -> fmt::Result {
        out.debug_struct("Pipeline").finish_non_exhaustive()
    }
}
