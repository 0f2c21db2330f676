"""What the commands `toxi-find` and `toxi-sweep` share beside their arguments: their statuses, and what the signals that end a program do."""
import signal
import sys

# Nothing is to be mended, something is, it couldn't be tried, and it was stopped.
NOTHING, FOUND, REFUSED, STOPPED = 0, 1, 2, 130
# After how many seconds what was ignored is raised again.
AGAIN = 0.01


def take_signals() -> None:
    """Lets the signals that end a program raise `KeyboardInterrupt`, but for those that are ignored, as under nohup.

    The client's command has a session of its own, which the terminal's signals don't reach. It is ended where this is raised.
    """
    for number in (signal.SIGINT, signal.SIGTERM, signal.SIGHUP):
        if signal.getsignal(number) is not signal.SIG_IGN:
            signal.signal(number, signal.default_int_handler)
    signal.signal(signal.SIGALRM, signal.default_int_handler)
    sys.unraisablehook = _raise_again


def _raise_again(unraisable: "sys.UnraisableHookArgs") -> None:
    """Python ignores what is raised while it frees an object. A `KeyboardInterrupt` is raised again a moment later, by a timer.

    A look behind each run would come late in a long one.
    """
    if issubclass(unraisable.exc_type, KeyboardInterrupt):
        signal.setitimer(signal.ITIMER_REAL, AGAIN)
    else:
        sys.__unraisablehook__(unraisable)
