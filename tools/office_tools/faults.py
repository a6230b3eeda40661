"""How a command of this package ends: its messages on standard error, and its exit status."""
import contextlib
import enum
import os
import sys
from types import TracebackType
from typing import Callable, Iterator, NoReturn, Optional, Sequence

Main = Callable[[Sequence[str]], int]


class Exit(enum.IntEnum):
    """The exit statuses of the commands. Each manual page says what they mean for its command."""

    DONE = 0
    NEGATIVE = 1  # the answer is no, something waits for a person, or a file can't be read
    USAGE = 2  # the words, or what the command keeps, aren't as required
    REFUSED = 3  # nothing was done: it would do harm, or somebody refused it
    FAILED = 4  # the office doesn't answer, or a program or the disk failed


INTERRUPTED = 130  # what a shell says of a command that SIGINT ended
PIPE_BROKEN = 141  # what a shell says of a command that SIGPIPE ended


class Fault(Exception):
    """A cause that ends a command.

    `run` prints it as `office-NAME: cause`, and the command ends with `status`.
    """

    def __init__(self, cause: str, status: int = Exit.NEGATIVE) -> None:
        super().__init__(cause)
        self.cause = cause
        self.status = status


@contextlib.contextmanager
def ending(status: int, before: str = "") -> Iterator[None]:
    """Within it a `Fault` has this status, and these words before its cause."""
    try:
        yield
    except Fault as fault:
        raise Fault(before + fault.cause, status) from fault


@contextlib.contextmanager
def naming(name: str, status: int = Exit.NEGATIVE, *others: type[Exception]) -> Iterator[None]:
    """Within it a fault of the system, or of one of the other types, is a `Fault` that names a file or a program."""
    kinds: tuple[type[Exception], ...] = (OSError, *others)
    try:
        yield
    except kinds as fault:
        raise Fault(f"{name}: {cause_of(fault)}", status) from fault


def tell(name: str, what: str) -> None:
    """Prints something on standard error, as `office-NAME: what`; `name` is the command's whole name."""
    print(f"{name}: {what}", file=sys.stderr)


def run(name: str, main: Main) -> NoReturn:
    """Ends the process with the status of `main`, which gets the words after the command's name.

    Prints a `Fault`, and ends with its status. An interrupt gives status 130. If nobody reads standard output any more,
    it prints nothing, and the status is 141. Any other fault of the system is printed, and gives status 1.
    """
    try:
        status = main(sys.argv[1:])
        sys.stdout.flush()
    except Fault as fault:
        tell(name, fault.cause)
        status = fault.status
    except KeyboardInterrupt:
        tell(name, "interrupted")
        status = INTERRUPTED
    except BrokenPipeError:
        drop_output()
        status = PIPE_BROKEN
    except OSError as fault:
        drop_output()
        tell(name, cause_of(fault) if fault.filename is None else f"{fault.filename}: {cause_of(fault)}")
        status = Exit.NEGATIVE
    sys.exit(status)


def end_quietly(kind: type[BaseException], fault: BaseException, trace: Optional[TracebackType]) -> None:
    """Prints a sentence in place of a traceback if an interrupt comes before `run`, while modules are imported."""
    if issubclass(kind, KeyboardInterrupt):
        tell(os.path.basename(sys.argv[0]), "interrupted")
    else:
        sys.__excepthook__(kind, fault, trace)


sys.excepthook = end_quietly


def drop_output() -> None:
    """Drops what isn't written yet: the interpreter writes it once more at its end, which must not fail again."""
    os.dup2(os.open(os.devnull, os.O_WRONLY), sys.stdout.fileno())


def some(names: Sequence[str], most: int, what: str = "") -> str:
    """The first of many names, and how many more there are."""
    more = f" and {len(names) - most} more{what}" if len(names) > most else ""
    return ", ".join(names[:most]) + more


def cause_of(fault: BaseException) -> str:
    """What the system says of a fault, without its number and the file's name."""
    return (isinstance(fault, OSError) and fault.strerror) or str(fault) or type(fault).__name__
