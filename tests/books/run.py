"""Running `amps`: "`amps` reads a book on standard input", and its listing comes on standard output."""
import os
import subprocess
import tempfile
import time

PATIENCE = 120  # seconds


def ended(process):
    """(status, what was printed)"""
    return process.returncode, process.stdout


def by_pipe(amps, book):
    return ended(subprocess.run(amps if isinstance(amps, list) else [amps], input=book, stdout=subprocess.PIPE, timeout=PATIENCE))


def by_file(amps, book):
    with tempfile.TemporaryFile() as file:
        file.write(book)
        file.seek(0)
        return ended(subprocess.run([amps], stdin=file, stdout=subprocess.PIPE, timeout=PATIENCE))


def by_drops(amps, book, sizes=(1, 2, 1, 5, 7, 100, 4096)):
    """The book comes in small parts with pauses between, so that a read does not get all that was asked for."""
    process = subprocess.Popen([amps], stdin=subprocess.PIPE, stdout=subprocess.PIPE, bufsize=0)
    left = book
    try:
        for size in sizes:
            process.stdin.write(left[:size])
            left = left[size:]
            time.sleep(0.005)
        process.stdin.write(left)
    except BrokenPipeError:
        pass  # a book that is refused early need not be read to its end
    said, _ = process.communicate(timeout=PATIENCE)
    return process.returncode, said


def without_input(amps):
    """Standard input is closed: reading it fails."""
    return ended(subprocess.run([amps], stdout=subprocess.PIPE, stderr=subprocess.DEVNULL, timeout=PATIENCE, preexec_fn=lambda: os.close(0)))


def with_a_folder(amps):
    """Standard input is a folder: it opens, and reading it fails."""
    place = os.open("/", os.O_RDONLY)
    try:
        return ended(subprocess.run([amps], stdin=place, stdout=subprocess.PIPE, stderr=subprocess.DEVNULL, timeout=PATIENCE))
    finally:
        os.close(place)


def without_output(amps, book):
    """Standard output is closed, or a pipe that nobody reads: the program must end all the same."""
    subprocess.run([amps], input=book, timeout=PATIENCE, preexec_fn=lambda: os.close(1))
    out, into = os.pipe()
    os.close(out)
    try:
        subprocess.run([amps], input=book, stdout=into, timeout=PATIENCE)
    finally:
        os.close(into)


def with_nothing(amps):
    return ended(subprocess.run([amps], stdin=subprocess.DEVNULL, stdout=subprocess.PIPE, timeout=PATIENCE))
