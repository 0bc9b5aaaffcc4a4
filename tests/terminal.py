"""Runs a command with some of its standard streams on a terminal, for tests/command.

    python3 tests/terminal.py STREAMS COLUMNS FILE WORD...

STREAMS has the numbers of those streams, such as 12; the terminal has so many COLUMNS. What it is sent goes to FILE.
The exit status is that of the command, 128 and more where a signal ended it.
"""
import fcntl
import os
import pty
import struct
import subprocess
import sys
import termios


def terminal(columns):
    """both ends of a terminal that changes no byte"""
    ours, theirs = pty.openpty()
    modes = termios.tcgetattr(theirs)
    modes[1] &= ~termios.OPOST
    termios.tcsetattr(theirs, termios.TCSANOW, modes)
    fcntl.ioctl(theirs, termios.TIOCSWINSZ, struct.pack("HHHH", 24, columns, 0, 0))
    return ours, theirs


def sent(ours):
    """all bytes up to the end, which Linux tells by an error"""
    while True:
        try:
            piece = os.read(ours, 65536)
        except OSError:
            return
        if not piece:
            return
        yield piece


def main():
    streams, columns, name, *words = sys.argv[1:]
    ours, theirs = terminal(int(columns))
    given = {stream: theirs for number, stream in ((1, "stdout"), (2, "stderr")) if str(number) in streams}
    command = subprocess.Popen(words, **given)
    os.close(theirs)
    with open(name, "wb") as file:
        file.writelines(sent(ours))
    status = command.wait()
    return status if status >= 0 else 128 - status


sys.exit(main())
