"""Imported first by what a shell starts: until a command can clear away what it has begun, Ctrl-C ends it without a word.

The scripts start Python with the signal blocked, since Python itself, while it starts, answers it with a traceback; one that came
meanwhile is heeded here.
"""

import signal

if signal.getsignal(signal.SIGINT) != signal.SIG_IGN:
    signal.signal(signal.SIGINT, signal.SIG_DFL)
signal.pthread_sigmask(signal.SIG_UNBLOCK, [signal.SIGINT])
