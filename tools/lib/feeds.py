"""From a feed to its list of events."""
import struct

from layout import (KINDS, MOST_AMOUNT, MOST_BYTES, MOST_INPUTS, MOST_OUTPUTS, MOST_OWN, MOST_ROWS, MOST_TRANSACTIONS,
                    VERSION, WORDS, Refused)

BYTES_A_LINE = 32


class Fault(Exception):
    """The first fault of a body: its place and its reason."""

    def __init__(self, place, reason):
        super().__init__(reason)
        self.place = place
        self.reason = reason


class Reader:
    """A body's fields, read in order."""

    def __init__(self, data):
        self.data = data
        self.at = 0

    def field(self, size, what):
        """A number of so many bytes, and its place."""
        place = self.at
        piece = self.data[place:place + size]
        if len(piece) < size:
            raise Fault(place, f'{what} is cut short: {len(piece)} of {size} bytes')
        self.at += size
        return int.from_bytes(piece, 'little'), place

    def count(self, least, most, what):
        value, place = self.field(1, f'the count of {what}')
        if not least <= value <= most:
            raise Fault(place, f'{value} {what}, expected {least} to {most}')
        return value

    def end(self):
        left = len(self.data) - self.at
        if left:
            raise Fault(self.at, f'{left} byte{"s" if left > 1 else ""} left over')


def above(value, before, place, what):
    if before is not None and value <= before:
        raise Fault(place, f'{what} {value} after {before}, expected ascending order')


def read_inputs(reader, count):
    inputs = []
    for _ in range(count):
        name, at_name = reader.field(8, "an input's number")
        if inputs and name < inputs[-1][0]:
            raise Fault(at_name, f"an input's number {name} after {inputs[-1][0]}, expected ascending order")
        index, at_index = reader.field(2, "an input's index")
        if inputs and name == inputs[-1][0]:
            above(index, inputs[-1][1], at_index, "an input's index")
        inputs.append((name, index))
    return inputs


def read_outputs(reader, count):
    outputs = []
    for _ in range(count):
        index, place = reader.field(2, "an output's index")
        above(index, outputs[-1][0] if outputs else None, place, "an output's index")
        address, _ = reader.field(4, "an output's address")
        amount, place = reader.field(8, "an output's amount")
        if amount > MOST_AMOUNT:
            raise Fault(place, f'an amount of {amount:,}, expected at most {MOST_AMOUNT:,}')
        outputs.append((index, address, amount))
    return outputs


def read_transaction(reader, before=None):
    """A transaction's number and its clause in a list."""
    name, place = reader.field(8, "a transaction's number")
    above(name, before, place, "a transaction's number")
    taken = reader.count(1, MOST_INPUTS, 'inputs')
    given = reader.count(0, MOST_OUTPUTS, 'outputs')
    inputs = ' '.join(f'{number}.{index}' for number, index in read_inputs(reader, taken))
    outputs = [f' {index}={address}:{amount:,}' for index, address, amount in read_outputs(reader, given)]
    return name, f'{name}: {inputs} ->{"".join(outputs)}'


def read_own(reader):
    addresses = []
    for _ in range(reader.count(0, MOST_OWN, 'own addresses')):
        address, place = reader.field(4, 'an own address')
        above(address, addresses[-1] if addresses else None, place, 'an own address')
        addresses.append(address)
    return [' '.join(['own'] + [str(address) for address in addresses])]


def read_block(reader):
    lines = ['block']
    before = None
    for _ in range(reader.count(0, MOST_TRANSACTIONS, 'transactions')):
        before, clause = read_transaction(reader, before)
        lines.append(f'  {clause}')
    return lines


def read_body(kind, body):
    """The lines of an event by its kind and body; raises the body's first fault."""
    reader = Reader(body)
    if kind == KINDS['own']:
        lines = read_own(reader)
    elif kind == KINDS['block']:
        lines = read_block(reader)
    elif kind == KINDS['pay']:
        lines = [f'pay {read_transaction(reader)[1]}']
    elif kind == KINDS['back']:
        lines = ['back']
    else:
        raise Fault(0, f'kind {kind} is unknown')
    reader.end()
    return lines


def raw_lines(kind, body, fault):
    """A faulty body as bytes, with its fault."""
    note = f'# answer 1, place {fault.place}: {fault.reason}'
    rows = [body[at:at + BYTES_A_LINE].hex(' ') for at in range(0, len(body), BYTES_A_LINE)]
    if len(rows) <= 1:
        return [' '.join(['bytes', WORDS[kind]] + rows + [f' {note}'])]
    return [f'bytes {WORDS[kind]}  {note}'] + [f'  {row}' for row in rows]


def rows_of(feed):
    """The kinds and bodies of a feed; says why it is refused as a whole."""
    if len(feed) > MOST_BYTES:
        raise Refused(f'more than {MOST_BYTES:,} bytes')
    if len(feed) < 4:
        raise Refused(f'the head is cut short: {len(feed)} of 4 bytes')
    version, count = struct.unpack_from('<HH', feed)
    if version != VERSION:
        raise Refused(f'version {version}, expected {VERSION}')
    if not 1 <= count <= MOST_ROWS:
        raise Refused(f'{count} rows, expected 1 to {MOST_ROWS}')
    place = 4 + 8 * count
    if len(feed) < place:
        raise Refused(f'the table is cut short: {len(feed)} bytes, its {count} rows end at {place}')
    bodies = []
    for row in range(1, count + 1):
        kind, zero, length, offset = struct.unpack_from('<BBHI', feed, 8 * row - 4)
        if kind not in WORDS:
            raise Refused(f'row {row}: kind {kind} is unknown')
        if (kind == KINDS['own']) != (row == 1):
            raise Refused(f'row {row}: kind {WORDS[kind]}, expected {"own" if row == 1 else "block, pay or back"}')
        if zero:
            raise Refused(f'row {row}: its second byte is {zero}, expected 0')
        if offset != place:
            raise Refused(f'row {row}: offset {offset}, expected {place}')
        place += length
        if place > len(feed):
            raise Refused(f'row {row}: its body ends at {place}, the feed at {len(feed)}')
        bodies.append((kind, feed[offset:place]))
    if place < len(feed):
        raise Refused(f'the last body ends at {place}, the feed at {len(feed)}')
    return bodies


def list_of_feed(feed, name):
    try:
        bodies = rows_of(feed)
        lines = []
        for kind, body in bodies:
            try:
                lines += read_body(kind, body)
            except Fault as fault:
                if kind == KINDS['own']:
                    raise Refused(f'row 1: the own list at place {fault.place}: {fault.reason}') from None
                lines += raw_lines(kind, body, fault)
    except Refused as reason:
        raise Refused(f'{name}: the feed is refused as a whole: {reason}') from None
    return ''.join(f'{line}\n' for line in lines)
