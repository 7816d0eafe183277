"""How the project's Python tools meet their caller: wrong calls, and files and outputs that fail, in one line each."""
import os
import sys


def complain(tool, trouble, status=1):
    """One line on standard error, whatever stands in a file's name; gives the exit status back."""
    line = ''.join(each if each.isprintable() else '?' for each in f'{tool}: {trouble}')
    if sys.stderr is not None:
        try:
            os.write(sys.stderr.fileno(), f'{line}\n'.encode(errors='replace'))
        except OSError:
            pass
    return status


def drop_output():
    """Nothing more can be written, and Python would try once more at its end."""
    os.dup2(os.open(os.devnull, os.O_WRONLY), sys.stdout.fileno())


def ended(tool, work, *words):
    """The exit status of a tool's work; a file that cannot be read or an output that cannot be written is told."""
    if sys.stdout is None:
        return complain(tool, 'standard output is closed')
    try:
        status = work(*words)
        sys.stdout.flush()
        return status
    except OSError as error:
        if error.filename is None:
            drop_output()
        return complain(tool, f'{error.filename or "standard output"}: {error.strerror}')


def without_words(tool, help_text, work):
    """For a tool that is called by its name alone."""
    words = sys.argv[1:]
    if words in (['-h'], ['--help']):
        return ended(tool, print, help_text.strip()) or 0
    if words:
        return complain(tool, f'usage: tools/{tool}', 2)
    return ended(tool, work)
