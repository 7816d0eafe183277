#!/usr/bin/env python3
"""The stored bodies that the program `bodies` reads, and how a reader written from the paper alone reads them.

    tools/bodies.py list  > crates/bodies/stdin      the list, in the program's format
    tools/bodies.py lines > crates/bodies/stdout     a line for each reading: kind, length, answer, place
"""
import struct
import sys
from pathlib import Path

sys.dont_write_bytecode = True
sys.path.insert(0, str(Path(__file__).resolve().parent / 'lib'))

import calls

LIMIT = 45_000_000_000_000_000


def own(*addresses):
    return bytes([len(addresses)]) + b''.join(struct.pack('<I', a) for a in addresses)


def transaction(number, inputs, outputs):
    head = struct.pack('<QBB', number, len(inputs), len(outputs))
    return (head + b''.join(struct.pack('<QH', n, i) for n, i in inputs)
            + b''.join(struct.pack('<HIQ', i, a, v) for i, a, v in outputs))


def block(*transactions):
    return bytes([len(transactions)]) + b''.join(transactions)


def full(number):
    return transaction(number, [(number - 9, i) for i in range(4)] + [(number - 8, i) for i in range(4)],
                       [(i, 10 + i, LIMIT - i) for i in range(8)])


def stored():
    """(kind, read every cut, body)"""
    plain = transaction(5, [(1, 0)], [(0, 10, 7)])
    yield 2, 1, block(full(100), full(200))
    yield 3, 1, full(100)
    yield 1, 1, own(1, 2, 4_294_967_295)
    yield 4, 1, b'\x00'
    for kind in (0, 5, 9, 255):
        yield kind, 1, plain[:3]
    # counts at and over their bounds
    yield 1, 0, own(*range(32))
    yield 1, 0, own(*range(33))
    yield 2, 0, block(*(transaction(n, [(1, n)], []) for n in range(16)))
    yield 2, 0, block(*(transaction(n, [(1, n)], []) for n in range(17)))
    yield 3, 0, transaction(5, [], [(0, 10, 7)])
    yield 3, 0, transaction(5, [(1, i) for i in range(8)], [(i, 10, 7) for i in range(8)])
    yield 3, 0, transaction(5, [(1, i) for i in range(9)], [])
    yield 3, 0, transaction(5, [(1, 0)], [(i, 10, 7) for i in range(9)])
    yield 3, 0, transaction(5, [(1, 0)], [])
    # orders broken
    yield 1, 0, own(1, 2, 2)
    yield 1, 0, own(1, 3, 2, 4)
    yield 2, 0, block(full(200), full(100))
    yield 2, 0, block(full(100), full(100))
    yield 3, 0, transaction(5, [(2, 0), (1, 0)], [])
    yield 3, 0, transaction(5, [(1, 3), (1, 3)], [])
    yield 3, 0, transaction(5, [(1, 3), (1, 2)], [])
    yield 3, 0, transaction(5, [(1, 3), (2, 2)], [])
    yield 3, 0, transaction(5, [(1, 0)], [(1, 10, 7), (0, 10, 7)])
    yield 3, 0, transaction(5, [(1, 0)], [(1, 10, 7), (1, 11, 8)])
    # amounts at the limit and over it
    yield 3, 0, transaction(5, [(1, 0)], [(0, 10, LIMIT)])
    yield 3, 0, transaction(5, [(1, 0)], [(0, 10, LIMIT + 1)])
    yield 3, 0, transaction(5, [(1, 0)], [(0, 10, 7), (1, 10, 2 ** 64 - 1)])
    yield 3, 0, transaction(2 ** 64 - 1, [(2 ** 64 - 1, 65535)], [(65535, 2 ** 32 - 1, 0)])
    # bytes left over
    yield 1, 0, own(1, 2) + b'\x00'
    yield 2, 0, block() + b'\x01'
    yield 2, 0, block()
    yield 3, 0, plain + plain
    yield 4, 0, b''
    # numbers in big endian order are read too, as other numbers
    yield 3, 0, struct.pack('>QBB', 5, 1, 0) + struct.pack('>QH', 1, 0)


class Fault(Exception):
    pass


class Reader:
    def __init__(self, body):
        self.body = body
        self.at = 0

    def field(self, width, rule=lambda n: True):
        start = self.at
        part = self.body[start:start + width]
        if len(part) < width:
            raise Fault(start)
        n = sum(b << (8 * k) for k, b in enumerate(part))
        if not rule(n):
            raise Fault(start)
        self.at = start + width
        return n

    def own(self):
        last = -1
        for _ in range(self.field(1, lambda n: n <= 32)):
            last = self.field(4, lambda a, last=last: last < a)

    def transaction(self, above=-1):
        number = self.field(8, lambda n: above < n)
        inputs = self.field(1, lambda n: 1 <= n <= 8)
        outputs = self.field(1, lambda n: n <= 8)
        last = (-1, -1)
        for _ in range(inputs):
            n = self.field(8, lambda n, last=last: last[0] <= n)
            last = (n, self.field(2, lambda i, last=last, n=n: n != last[0] or last[1] < i))
        last = -1
        for _ in range(outputs):
            last = self.field(2, lambda i, last=last: last < i)
            self.field(4)
            self.field(8, lambda v: v <= LIMIT)
        return number

    def block(self):
        last = -1
        for _ in range(self.field(1, lambda n: n <= 16)):
            last = self.transaction(last)


def reading(kind, body):
    """the paper's answer and the place of the first fault"""
    reader = Reader(body)
    rules = {1: reader.own, 2: reader.block, 3: reader.transaction, 4: lambda: None}
    if kind not in rules:
        return 1, 0
    try:
        rules[kind]()
    except Fault as fault:
        return 1, fault.args[0]
    return (0, 0) if reader.at == len(body) else (1, reader.at)


def write(what):
    for kind, every, body in stored():
        if what == 'list':
            sys.stdout.buffer.write(struct.pack('<BBH', kind, every, len(body)) + body)
            continue
        for end in range(len(body) + 1) if every else [len(body)]:
            answer, place = reading(kind, body[:end])
            print(kind, end, answer, place)
    return 0


def main(words):
    if words in (['-h'], ['--help']):
        return calls.ended('bodies.py', print, __doc__.strip()) or 0
    if words not in (['list'], ['lines']):
        return calls.complain('bodies.py', 'usage: tools/bodies.py list | lines', 2)
    return calls.ended('bodies.py', write, *words)


if __name__ == '__main__':
    sys.exit(main(sys.argv[1:]))
