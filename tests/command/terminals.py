"""Runs with a terminal as standard error or standard output."""
import os, pty, subprocess


def shown_on(master):
    """All that a terminal shows once its program has ended."""
    shown = b""
    while True:
        try:
            piece = os.read(master, 1 << 16)
        except OSError:
            break
        if not piece:
            break
        shown += piece
    os.close(master)
    return shown.replace(b"\r\n", b"\n")


def on_terminal(folder, *words, input=b""):
    """Runs in this folder with a terminal as standard error; returns the status, the output and what the terminal shows."""
    master, slave = pty.openpty()
    process = subprocess.Popen([str(word) for word in words], cwd=folder, stdin=subprocess.PIPE, stdout=subprocess.PIPE, stderr=slave)
    os.close(slave)
    out, _ = process.communicate(input)
    return process.returncode, out, shown_on(master).decode()


def to_terminal(folder, *words, input=b""):
    """Runs in this folder with a terminal as standard output; returns the status, what it shows and the error output."""
    master, slave = pty.openpty()
    process = subprocess.Popen([str(word) for word in words], cwd=folder, stdin=subprocess.PIPE, stdout=slave, stderr=subprocess.PIPE)
    os.close(slave)
    _, errors = process.communicate(input)
    return process.returncode, shown_on(master), errors.decode()
