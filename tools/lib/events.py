"""Feeds as readable lists of events, and back.

    tools/events feed LIST [FEED]     writes the feed of a list of events
    tools/events list FEED [LIST]     writes a feed's list of events

A name of - is standard input or output; without a second name the result goes to standard output.

A list has one event a line, in the order of the feed's rows:

    own 10 11                                 own addresses, ascending; the first event, and no other
    block                                     a block; its transactions follow, one an indented line
      100: 1.0 -> 0=10:60 1=11:40
    pay 200: 100.0 -> 0=99:25 1=10:33         a payment
    back                                      a rollback

A transaction is NUMBER: INPUT .. -> OUTPUT .. . An input is NUMBER.INDEX, the transaction and the index of the output that
it spends. An output is INDEX=ADDRESS:AMOUNT. A transaction without outputs ends with the arrow. Numbers may be grouped,
1,000,000 or 1_000_000. What follows a # is a comment.

A list that breaks the feed's layout is refused with its line: too many inputs, a wrong order, an amount over the limit.
Faulty feeds are written on purpose with two further lines:

    bytes pay c8 00 00                        an event with these bytes as its body, in hex, right or wrong; the kind is
                                              own, block, pay, back or a number; indented lines may give further bytes
    cut 90                                    the last line: only the first 90 bytes of the feed are written

`list` shows a faulty body as such bytes, with the place and the reason of its fault. A feed that is refused as a whole
has no list: one line says why.

A list has at most 4,194,304 bytes.

Exit status: 0, or 1 after an error, which is one line on standard error; 2 for a wrong call.
"""
import os
import sys

from calls import complain, drop_output
from feeds import list_of_feed
from layout import MOST_BYTES, Refused
from lists import feed_of_list

# a list of the longest feed takes a twentieth of this; without a limit one would read /dev/zero for ever
MOST_LIST = 4_194_304
USAGE = 'usage: tools/events feed LIST [FEED] | tools/events list FEED [LIST] | tools/events help'


def read(name, called, most):
    """A file's bytes, at most one more than these."""
    try:
        if name != '-':
            with open(name, 'rb') as file:
                return file.read(most + 1)
        if sys.stdin is None:
            raise Refused(f'{called}: cannot be read: it is closed')
        return sys.stdin.buffer.read(most + 1)
    except OSError as error:
        raise Refused(f'{called}: cannot be read: {error.strerror}') from None


def write(name, data):
    called = 'standard output' if name == '-' else name
    try:
        if name != '-':
            with open(name, 'wb') as file:
                file.write(data)
            return
        if sys.stdout is None:
            raise Refused(f'{called}: cannot be written: it is closed')
        sys.stdout.buffer.write(data)
        sys.stdout.buffer.flush()
    except OSError as error:
        if name == '-':
            drop_output()
        raise Refused(f'{called}: cannot be written: {error.strerror}') from None


def text_of(data, name):
    if len(data) > MOST_LIST:
        raise Refused(f'{name}: expected a list of at most {MOST_LIST:,} bytes, found more')
    try:
        return data.decode('utf-8-sig')
    except UnicodeDecodeError as error:
        line = data[:error.start].count(b'\n') + 1
        raise Refused(f'{name}:{line}: expected text, found the byte {data[error.start]:02x}') from None


def turn(what, source, target):
    called = 'standard input' if source == '-' else source
    if source != '-' and os.path.exists(source) and os.path.exists(target) and os.path.samefile(source, target):
        raise Refused(f'{target}: cannot be written: it is what is read')
    if what == 'feed':
        write(target, feed_of_list(text_of(read(source, called, MOST_LIST), called), called))
    else:
        write(target, list_of_feed(read(source, called, MOST_BYTES), called).encode())


def main(words):
    try:
        if words in (['help'], ['-h'], ['--help']):
            write('-', f'{__doc__.strip()}\n'.encode())
            return 0
        if len(words) not in (2, 3) or words[0] not in ('feed', 'list') or '' in words:
            return complain('events', USAGE, 2)
        turn(words[0], words[1], words[2] if len(words) == 3 else '-')
    except Refused as reason:
        return complain('events', reason)
    return 0


if __name__ == '__main__':
    sys.exit(main(sys.argv[1:]))
