"""Runs commands, each in a session of its own, so that all that it started can be ended with it."""
import contextlib
import os
import signal
import subprocess
import threading

LOCK, ALL = threading.Lock(), set()


def end(process):
    """Ends a command with all that it started."""
    with contextlib.suppress(ProcessLookupError):
        os.killpg(process.pid, signal.SIGKILL)
    ALL.discard(process)


def end_all():
    with LOCK:
        for it in list(ALL):
            end(it)


def ran(words, limit=None, **how):
    """Runs a command without a terminal. Returns its status and what it wrote, to standard error too where nothing else is said.
    The status is 124 where it had not ended after so many seconds."""
    how = {"stdin": subprocess.DEVNULL, "stdout": subprocess.PIPE, "stderr": subprocess.STDOUT, **how}
    with LOCK:
        process = subprocess.Popen(words, start_new_session=True, **how)
        ALL.add(process)
    try:
        said = process.communicate(timeout=limit)[0]
        return process.returncode, said
    except subprocess.TimeoutExpired:
        end(process)
        return 124, process.communicate()[0] + b"\nit had not ended after %d seconds\n" % limit
    finally:
        end(process)
