// SPDX-License-Identifier: Apache-2.0
//! The current span of a thread.

use crate::shared::Shared;
use crate::span::{Span, Standing};
use std::cell::RefCell;
use std::fmt;
use std::marker::PhantomData;
use std::ops::Deref;
use std::sync::Arc;

thread_local! {
    static ENTERED: RefCell<Stack> = const { RefCell::new(Stack { spans: Vec::new(), next: 0 }) };
}

/// The spans that a thread is in, the current one last.
struct Stack {
    spans: Vec<Entered>,
    next: u64,
}

struct Entered {
    number: u64,
    shared: Arc<Shared>,
    standing: Standing,
}

/// While it is there its span is the current one of the thread: the parent of spans of the same pipeline that start
/// there without another, and what [`current_span`] answers. See [`Span::enter`].
///
/// It stays in its thread, and is not to be held where a future waits: the thread does other work meanwhile.
#[must_use = "a span is the current one until this is dropped"]
pub struct Current<'s> {
    /// None where the span did not start: the current one stays the one before.
    number: Option<u64>,
    _of: PhantomData<(&'s Span, *const ())>,
}

impl Current<'_> {
    pub(crate) fn enter(started: Option<(&Arc<Shared>, Standing)>) -> Self {
        let number = started.and_then(|(shared, standing)| {
            let shared = Arc::clone(shared);
            let entered = |stack: &RefCell<Stack>| {
                let stack = &mut *stack.borrow_mut();
                stack.next += 1;
                stack.spans.push(Entered { number: stack.next, shared, standing });
                stack.next
            };
            // A thread that ends has no current span.
            ENTERED.try_with(entered).ok()
        });
        Self { number, _of: PhantomData }
    }
}

impl Drop for Current<'_> {
    fn drop(&mut self) {
        let Some(number) = self.number else {
            return;
        };
        let left = ENTERED.try_with(|stack| {
            let spans = &mut stack.borrow_mut().spans;
            let place = spans.iter().rposition(|it| it.number == number)?;
            Some(spans.remove(place))
        });
        // It is let go of where the stack is no longer borrowed.
        drop(left);
    }
}

impl fmt::Debug for Current<'_> {
    fn fmt(&self, out: &mut fmt::Formatter<'_>) -> fmt::Result {
        out.debug_struct("Current").finish_non_exhaustive()
    }
}

/// The current span of this thread, as long as this is there. It has the calls of a [`Span`], and does not end it.
pub struct CurrentSpan(Span);

/// The current span of this thread, whose [`Current`] is there; a new thread begins without one.
///
/// ```
/// # fn main() -> Result<(), otel_proved::Error> {
/// use otel_proved::current_span;
/// # let pipeline = otel_proved::Pipeline::builder().open()?;
/// let request = pipeline.tracer("shop").span("GET /cart").start();
/// let _current = request.enter();
/// // Somewhere below:
/// if let Some(span) = current_span() {
///     span.set_attribute("cart.size", 3);
/// }
/// # assert_eq!(current_span().unwrap().context(), request.context());
/// # Ok(())
/// # }
/// ```
pub fn current_span() -> Option<CurrentSpan> {
    let last = |stack: &RefCell<Stack>| {
        let stack = stack.borrow();
        stack.spans.last().map(|it| (Arc::clone(&it.shared), it.standing.clone()))
    };
    let (shared, standing) = ENTERED.try_with(last).ok()??;
    Some(CurrentSpan(match standing {
        Standing::Open(key, context) => Span::new(shared, key, context),
        Standing::Passing(parent) => Span::passing(shared, parent),
    }))
}

/// What children of the current span are below, where it is one of a pipeline.
pub(crate) fn standing_within(shared: &Arc<Shared>) -> Option<Standing> {
    let last = |stack: &RefCell<Stack>| {
        let stack = stack.borrow();
        stack.spans.last().filter(|it| Arc::ptr_eq(&it.shared, shared)).map(|it| it.standing.clone())
    };
    ENTERED.try_with(last).ok()?
}

impl Deref for CurrentSpan {
    type Target = Span;

    fn deref(&self) -> &Span {
        &self.0
    }
}

impl Drop for CurrentSpan {
    fn drop(&mut self) {
        self.0.disown();
    }
}

impl fmt::Debug for CurrentSpan {
    fn fmt(&self, out: &mut fmt::Formatter<'_>) -> fmt::Result {
        self.0.fmt(out)
    }
}
