"""From a list of events to its feed."""
import re
import struct

from layout import (KINDS, MOST_ADDRESS, MOST_AMOUNT, MOST_BODY, MOST_BYTES, MOST_INDEX, MOST_INPUTS, MOST_NUMBER,
                    MOST_OUTPUTS, MOST_OWN, MOST_ROWS, MOST_TRANSACTIONS, VERSION, Refused, shown)

DIGITS = re.compile(r'[0-9]+|[0-9]{1,3}(,[0-9]{3})+|[0-9]+(_[0-9]+)+')


def number(text, most, what):
    if not DIGITS.fullmatch(text):
        raise Refused(f"expected {what}, found {shown(text)}")
    digits = re.sub('[,_]', '', text).lstrip('0') or '0'
    # the length first: Python refuses to read thousands of digits
    if len(digits) > len(str(most)) or int(digits) > most:
        raise Refused(f"expected {what} up to {most:,}, found {shown(text)}")
    return int(digits)


def parts(text, marks, what):
    """The pieces of a text between marks, each of which it has once and in order."""
    pieces = []
    rest = text
    for mark in marks:
        piece, found, rest = rest.partition(mark)
        if not found:
            raise Refused(f"expected {what}, found {shown(text)}")
        pieces.append(piece)
    pieces.append(rest)
    if not all(DIGITS.fullmatch(piece) for piece in pieces):
        raise Refused(f"expected {what}, found {shown(text)}")
    return pieces


def spent(text):
    transaction, index = parts(text, '.', 'NUMBER.INDEX')
    return (number(transaction, MOST_NUMBER, 'a transaction number'), number(index, MOST_INDEX, 'an output index'))


def made(text):
    index, address, amount = parts(text, '=:', 'INDEX=ADDRESS:AMOUNT')
    return (number(index, MOST_INDEX, 'an output index'), number(address, MOST_ADDRESS, 'an address number'),
            number(amount, MOST_AMOUNT, 'an amount'))


def ascending(keys, texts, what):
    for before, after, text, earlier in zip(keys, keys[1:], texts[1:], texts):
        if before >= after:
            raise Refused(f"expected {what} in strictly ascending order, found {shown(text)} after {shown(earlier)}")


def counted(things, least, most, what):
    if not least <= len(things) <= most:
        raise Refused(f'expected {least} to {most} {what}, found {len(things)}')


def transaction_of(text):
    """A transaction's number and bytes."""
    words = text.split()
    if not words or not words[0].endswith(':'):
        raise Refused(f"expected a transaction, NUMBER: INPUT .. -> OUTPUT .., found {shown(text)}")
    name = number(words[0][:-1], MOST_NUMBER, 'a transaction number')
    if '->' not in words:
        raise Refused(f"expected -> between inputs and outputs, found {shown(text)}")
    arrow = words.index('->')
    taken, given = words[1:arrow], words[arrow + 1:]
    inputs = [spent(word) for word in taken]
    outputs = [made(word) for word in given]
    counted(inputs, 1, MOST_INPUTS, 'inputs')
    counted(outputs, 0, MOST_OUTPUTS, 'outputs')
    ascending(inputs, taken, 'inputs')
    ascending([index for index, _, _ in outputs], given, 'output indices')
    return name, (struct.pack('<QBB', name, len(inputs), len(outputs))
                  + b''.join(struct.pack('<QH', *each) for each in inputs)
                  + b''.join(struct.pack('<HIQ', *each) for each in outputs))


def hex_of(text):
    try:
        return bytes.fromhex(text)
    except ValueError:
        raise Refused(f"expected bytes in hex, two digits each, found {shown(text)}") from None


class Event:
    """One event of a list, with what its indented lines added."""

    def __init__(self, kind, raw=None):
        self.kind = kind
        self.raw = raw
        self.own = b''
        self.names = []
        self.transactions = []

    def add(self, text):
        if self.raw is not None:
            self.raw += hex_of(text)
        elif self.kind == KINDS['block']:
            name, data = transaction_of(text)
            self.names.append(name)
            self.transactions.append(data)
            ascending(self.names[-2:], [f'{each}:' for each in self.names[-2:]], 'transactions')
            counted(self.transactions, 0, MOST_TRANSACTIONS, 'transactions')
        else:
            raise Refused(f"expected an event at the line's start, found {shown(text)}; indented lines belong to a block or to bytes")
        if len(self.body()) > MOST_BODY:
            raise Refused(f'expected a body of at most {MOST_BODY:,} bytes, found {len(self.body()):,}')

    def body(self):
        if self.raw is not None:
            return self.raw
        if self.kind == KINDS['own']:
            return self.own
        if self.kind == KINDS['block']:
            return bytes([len(self.transactions)]) + b''.join(self.transactions)
        return b''.join(self.transactions)


def own_event(text):
    words = text.split()
    addresses = [number(word, MOST_ADDRESS, 'an address number') for word in words]
    counted(addresses, 0, MOST_OWN, 'own addresses')
    ascending(addresses, words, 'own addresses')
    event = Event(KINDS['own'])
    event.own = bytes([len(addresses)]) + b''.join(struct.pack('<I', each) for each in addresses)
    return event


def raw_event(text):
    kind, _, rest = text.partition(' ')
    if kind in KINDS:
        code = KINDS[kind]
    else:
        code = number(kind, 255, 'a kind: own, block, pay, back or a number')
    event = Event(code, b'')
    event.add(rest)
    return event


def event_of(text, first):
    """The event that a line which is not indented begins."""
    word, _, rest = text.partition(' ')
    rest = rest.strip()
    if word == 'bytes':
        return raw_event(rest)
    if first != (word == 'own'):
        wanted = 'own as the first event' if first else 'block, pay or back'
        raise Refused(f"expected {wanted}, found {shown(word)}")
    if word == 'own':
        return own_event(rest)
    if word == 'pay':
        event = Event(KINDS['pay'])
        event.transactions.append(transaction_of(rest)[1])
        return event
    if word not in KINDS:
        raise Refused(f"expected block, pay or back, found {shown(word)}")
    if rest:
        hint = '; its transactions stand on indented lines' if word == 'block' else ''
        raise Refused(f"expected nothing after {word}, found {shown(rest)}{hint}")
    return Event(KINDS[word])


def feed_of(bodies):
    """The bytes of a feed, from its kinds and bodies."""
    place = 4 + 8 * len(bodies)
    rows = []
    for kind, body in bodies:
        rows.append(struct.pack('<BBHI', kind, 0, len(body), place))
        place += len(body)
    return struct.pack('<HH', VERSION, len(bodies)) + b''.join(rows) + b''.join(body for _, body in bodies)


class List:
    """A list of events while it is read, line by line."""

    def __init__(self):
        self.events = []
        self.cut = None
        self.size = 4

    def line(self, line):
        text = line.partition('#')[0].rstrip()
        if not text.strip():
            return
        if self.cut is not None:
            raise Refused(f"expected nothing after cut, found {shown(text.strip())}")
        before = len(self.events[-1].body()) if self.events else 0
        if text[0] in ' \t':
            if not self.events:
                raise Refused(f"expected own as the first event at the line's start, found {shown(text.strip())}")
            self.events[-1].add(text.strip())
            self.size += len(self.events[-1].body()) - before
        elif text.split()[0] == 'cut':
            self.cut = number(text[3:].strip(), self.size - 1, 'the number of bytes that are left,')
        else:
            self.events.append(event_of(' '.join(text.split()), not self.events))
            self.size += 8 + len(self.events[-1].body())
        if len(self.events) > MOST_ROWS:
            raise Refused(f'expected at most {MOST_ROWS} events, found one more')
        if self.size > MOST_BYTES:
            raise Refused(f'expected a feed of at most {MOST_BYTES:,} bytes, found {self.size:,} up to here')

    def feed(self):
        if not self.events:
            raise Refused('expected own as the first event, found no event')
        whole = feed_of([(event.kind, event.body()) for event in self.events])
        return whole if self.cut is None else whole[:self.cut]


def feed_of_list(text, name):
    events = List()
    at = 0
    try:
        for at, line in enumerate(text.split('\n'), 1):
            events.line(line)
        return events.feed()
    except Refused as reason:
        raise Refused(f'{name}:{at}: {reason}') from None
