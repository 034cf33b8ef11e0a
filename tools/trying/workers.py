"""Worker processes, which make trials side by side. When the runner is stopped, they end at once, with all that they
have started.
"""
import collections
import contextlib
import ctypes
import multiprocessing
import multiprocessing.connection
import os
import signal
import sys
import traceback

from . import Stop, tracing
from .consumer import kill_group

STOPS = (signal.SIGINT, signal.SIGTERM, signal.SIGHUP)
SECONDS = 10  # that a worker may take to end: a last guard
SET_SIGNAL_OF_ORPHANS = 1  # PR_SET_PDEATHSIG


def end_at_stops():
    """From now on, a stop ends this process by `SystemExit`, and later ones change nothing. A stop that is ignored
    stays so, as `nohup` has it."""

    def stop(number, _):
        for it in STOPS:
            signal.signal(it, signal.SIG_IGN)
        sys.exit(128 + number)

    for it in STOPS:
        if signal.getsignal(it) is not signal.SIG_IGN:
            signal.signal(it, stop)


class Workers:
    """Up to `count` workers, which are started when there is work for them. A worker calls functions with `shared`
    and other arguments."""

    def __init__(self, count, shared):
        self.count, self.shared = count, shared
        self.processes, self.idle = {}, []  # the process of each pipe, and the pipes of those without work
        self.context = multiprocessing.get_context("fork")

    def call(self, function, *arguments):
        """Has a worker call a function, and returns the result."""
        return next(self.each(function, [arguments]))

    def each(self, function, tasks):
        """Has workers call a function with the arguments of each task. Yields the results in the order of the tasks.
        Ends the workers that are busy when nobody asks for more results."""
        tasks, busy, results, number = collections.deque(enumerate(tasks)), {}, {}, 0
        try:
            while tasks or busy:
                while tasks and (self.idle or len(self.processes) < self.count):
                    pipe = self.idle.pop() if self.idle else self.started()
                    busy[pipe], arguments = tasks.popleft()
                    pipe.send((function, arguments))
                for pipe in multiprocessing.connection.wait(busy):
                    results[busy[pipe]] = self.result(pipe)
                    del busy[pipe]
                    self.idle.append(pipe)
                while number in results:
                    yield results.pop(number)
                    number += 1
        finally:
            self.end(list(busy))

    def started(self):
        """Starts a worker, and returns the pipe to it."""
        pipe, its_end = self.context.Pipe()
        arguments = (its_end, [*self.processes, pipe], os.getpid(), self.shared)
        process = self.context.Process(target=work, args=arguments, daemon=True)
        process.start()
        its_end.close()
        self.processes[pipe] = process
        return pipe

    def result(self, pipe):
        """Returns the result that a worker has sent, or raises what it has raised."""
        try:
            result, fault, text = pipe.recv()
        except EOFError:
            raise Stop(f"worker {self.processes[pipe].pid} was killed") from None
        if text:
            raise RuntimeError(text)
        if fault:
            raise fault
        return result

    def end(self, pipes=None):
        """Ends all workers, or those of these pipes, with all that they have started."""
        ending = {it: self.processes.pop(it) for it in (list(self.processes) if pipes is None else pipes)}
        self.idle = [it for it in self.idle if it in self.processes]
        for process in ending.values():
            process.terminate()
        for pipe, process in ending.items():
            process.join(SECONDS)
            if process.is_alive():
                process.kill()
                process.join()
            pipe.close()


def work(pipe, others, runner, shared):
    """Calls functions as long as the runner sends some, and sends it their results."""
    signal.signal(signal.SIGINT, lambda *_: None)  # (a terminal sends it to the runner, too)
    for it in (signal.SIGTERM, signal.SIGHUP):
        signal.signal(it, end)
    ctypes.CDLL(None).prctl(SET_SIGNAL_OF_ORPHANS, signal.SIGTERM)
    for it in others:
        it.close()
    with contextlib.suppress(EOFError, BrokenPipeError):
        while os.getppid() == runner:
            function, arguments = pipe.recv()
            try:
                answer = (function(shared, *arguments), None, None)
            except (Stop, OSError) as why:
                answer = (None, why, None)
            except Exception:  # (a defect, which the runner shows)
                answer = (None, None, traceback.format_exc())
            pipe.send(answer)


def end(number, _):
    """Ends this worker and all that it has started, wherever it is: nothing can catch this."""
    for it in tracing.children_of(os.getpid()):
        kill_group(it)
    os._exit(128 + number)
