"""Ending on a signal as on Ctrl-C, so that solvers and builds that were started are ended too."""
import signal


class Ended(KeyboardInterrupt):
    """A signal that asks a command to end."""

    def __init__(self, number):
        super().__init__(number)
        self.number = number


def _end(number, _):
    signal.signal(number, signal.SIG_IGN)
    raise Ended(number)


def on_signals():
    """Makes the signals of a time limit and of a closed terminal end this process as Ctrl-C does; one that is ignored,
    as under nohup, stays so."""
    for number in (signal.SIGTERM, signal.SIGHUP):
        if signal.getsignal(number) != signal.SIG_IGN:
            signal.signal(number, _end)


def status(error):
    """The exit status after a KeyboardInterrupt, as a shell tells it."""
    return 128 + getattr(error, 'number', signal.SIGINT)
