# SPDX-License-Identifier: Apache-2.0
"""What happens to locks when a process forks.

The parent's other threads are not there in the child, and never let go of what they hold. So each thing that has a
lock is registered here: what must be whole in the child is held over the fork, and the child makes its locks anew.
"""

from __future__ import annotations

import os
import threading
import weakref
from typing import Any, List

# Threads and handlers of signals add to it and remove from it, each in one step of C code.
_things: "List[weakref.ref[Any]]" = []
_held: List[Any] = []
# Held from before a fork until after it.
_forking = threading.RLock()


def register(thing: Any) -> None:
    """From now on a fork calls the thing's before_fork, after_fork_in_parent and after_fork_in_child."""
    _things.append(weakref.ref(thing, _things.remove))


def _living() -> List[Any]:
    return [thing for thing in (it() for it in list(_things)) if thing is not None]


def _before() -> None:
    _forking.acquire()
    _held[:] = _living()
    for thing in _held:
        thing.before_fork()


def _after_in_parent() -> None:
    for thing in _held:
        thing.after_fork_in_parent()
    _held.clear()
    _forking.release()


def _after_in_child() -> None:
    global _forking
    # A server that is no Python program may fork without a word before it.
    for thing in _held or _living():
        thing.after_fork_in_child()
    _held.clear()
    _forking = threading.RLock()


class Renewed:
    """A thing that need not be whole when the process forks, since the child makes it anew."""

    def before_fork(self) -> None:
        """Holds nothing."""

    def after_fork_in_parent(self) -> None:
        """Has nothing to let go."""


os.register_at_fork(before=_before, after_in_parent=_after_in_parent, after_in_child=_after_in_child)
