// SPDX-License-Identifier: Apache-2.0
//! The spans that are open in this process.

use crate::slot::Slot;
use std::collections::HashMap;
use std::process;
use std::sync::{Arc, Mutex, MutexGuard, OnceLock, PoisonError};
use tracing::span::Id;

/// The spans of a process, and those of a child that a fork made of it: the lock of the parent's may be held for ever
/// there, and its spans are the parent's.
#[derive(Debug)]
pub(crate) struct OpenSpans {
    process: u32,
    slots: Mutex<HashMap<u64, Arc<Slot>>>,
    of_child: OnceLock<Box<OpenSpans>>,
}

impl Default for OpenSpans {
    fn default() -> Self {
        Self { process: process::id(), slots: Mutex::default(), of_child: OnceLock::new() }
    }
}

impl OpenSpans {
    /// Those of this process.
    pub fn here(&self) -> &Self {
        let (mut found, process) = (self, process::id());
        while found.process != process {
            found = found.of_child.get_or_init(Box::default);
        }
        found
    }

    fn lock(&self) -> MutexGuard<'_, HashMap<u64, Arc<Slot>>> {
        self.slots.lock().unwrap_or_else(PoisonError::into_inner)
    }

    pub fn get(&self, id: &Id) -> Option<Arc<Slot>> {
        self.lock().get(&id.into_u64()).map(Arc::clone)
    }

    pub fn insert(&self, id: &Id, slot: Arc<Slot>) {
        self.lock().insert(id.into_u64(), slot);
    }

    pub fn remove(&self, id: &Id) -> Option<Arc<Slot>> {
        self.lock().remove(&id.into_u64())
    }
}
