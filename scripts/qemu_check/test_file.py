"""The reader of a test's file (docs/FILE.md).

It reads what the comparison needs and refuses a file whose shape it can't follow.  Whether a file is wholly
well-formed, and right, is what `testgen replay` tells.
"""
import struct

from .state import CSR, CSR_NAME, OPEN_CSRS, Access, Record, is_legal

LIMIT = 8388608                     # bytes of a file
IDENT = bytes.fromhex('7f454c46010101000000000000000000')


class BadFile(Exception):
    pass


class Start:
    """A hart at the start or at the end: pc, privilege, and the registers and CSRs that are listed."""

    def __init__(self, numbers):
        self.pc, self.privilege = numbers.word(), numbers.word()
        self.csrs = {CSR['mstatus']: numbers.word(), CSR['medeleg']: numbers.word(), CSR['satp']: numbers.word()}
        self.registers = {}
        for _ in range(numbers.count(41)):
            key, value = numbers.word(), numbers.word()
            if 1 <= key <= 31:
                self.registers[key] = value
            elif key - 0x1000 in OPEN_CSRS:
                self.csrs[key - 0x1000] = value
            else:
                raise BadFile('a place with the key %08x' % key)
        if self.pc % 4 or self.privilege not in (0, 1, 3):
            raise BadFile('a pc %08x with the privilege %d' % (self.pc, self.privilege))
        for csr, value in self.csrs.items():
            if not is_legal(csr, value):
                raise BadFile('%08x in %s' % (value, CSR_NAME[csr]))


class Numbers:
    """Little-endian numbers, one after another."""

    def __init__(self, data):
        self.data, self.at = data, 0

    def number(self, size):
        if self.at + size > len(self.data):
            raise BadFile('a note is too short')
        self.at += size
        return int.from_bytes(self.data[self.at - size:self.at], 'little')

    def word(self):
        return self.number(4)

    def byte(self):
        return self.number(1)

    def count(self, most):
        count = self.word()
        if count > most:
            raise BadFile('a count of %d, above %d' % (count, most))
        return count

    def end(self):
        if self.at != len(self.data):
            raise BadFile('a note is too long')


class TestFile:
    """`ram` [(low, high)], `starts` and `ends` a hart, `records` [[Record]] a hart, and of the loads' words
    `words` {address: value at the start} and `last_words` {address: value at the end}."""

    def __init__(self, path):
        try:
            with open(path, 'rb') as file:
                self.data = file.read(LIMIT + 1)
        except OSError as error:
            raise BadFile(error.strerror)
        if len(self.data) > LIMIT:
            raise BadFile('longer than %d bytes' % LIMIT)
        headers = self.headers()
        notes = self.notes(headers[0])
        self.words = {}
        for _, offset, address, _, size, _, _, _ in headers[1:]:
            if address % 4 or size % 4 or address + size > 1 << 32 or offset + size > len(self.data):
                raise BadFile('a load of %d bytes at %08x' % (size, address))
            for i in range(0, size, 4):
                self.words[address + i] = struct.unpack_from('<I', self.data, offset + i)[0]
        start, steps, end = (Numbers(notes[kind]) for kind in (1, 2, 3))
        if start.word() != 1:
            raise BadFile('not version 1')
        harts = start.count(4)
        self.starts = [Start(start) for _ in range(harts)]
        self.records = [[record(steps) for _ in range(steps.count(8192))] for _ in range(harts)]
        self.ends = [Start(end) for _ in range(harts)]
        if end.word() != len(self.words):
            raise BadFile('the words at the end are not as many as those of the loads')
        self.last_words = {address: end.word() for address in sorted(self.words)}
        for numbers in (start, steps, end):
            numbers.end()
        self.ram = ram_of(notes[4])
        self.check()

    def headers(self):
        data = self.data
        if len(data) < 52 or data[:16] != IDENT:
            raise BadFile('no ELF file of 32 bits')
        kind, machine, version, self.entry, first = struct.unpack_from('<HHIII', data, 16)
        count = struct.unpack_from('<H', data, 44)[0]
        if (kind, machine, version, first) != (2, 243, 1, 52) or count < 1 or len(data) < 52 + 32 * count:
            raise BadFile('not the ELF file of a test')
        headers = [struct.unpack_from('<8I', data, 52 + 32 * i) for i in range(count)]
        if [header[0] for header in headers] != [4] + [1] * (count - 1):
            raise BadFile('program headers that are not of one segment of notes and loads')
        return headers

    def notes(self, header):
        """The descs of the five notes by their types."""
        offset, size = header[1], header[4]
        segment, notes, at = self.data[offset:offset + size], {}, 0
        for kind in range(1, 6):
            if at + 20 > len(segment):
                raise BadFile('note %d is missing' % kind)
            name_size, size, its_kind = struct.unpack_from('<III', segment, at)
            if (name_size, its_kind) != (5, kind) or segment[at + 12:at + 20] != b'TGEN\0\0\0\0':
                raise BadFile('note %d is another' % kind)
            if at + 20 + size > len(segment):
                raise BadFile('note %d is cut' % kind)
            notes[kind] = segment[at + 20:at + 20 + size]
            at += 20 + size + -size % 4
        return notes

    def check(self):
        """What the comparison relies on."""
        if self.entry != self.starts[0].pc:
            raise BadFile('the entry is not the pc of hart 0')
        if not self.ram or any(low % 4096 or high % 4096 or low >= high for low, high in self.ram):
            raise BadFile('a template without regions of RAM')
        for address in self.words:
            if not any(low <= address < high for low, high in self.ram):
                raise BadFile('a word at %08x, outside the RAM' % address)


def record(numbers):
    pc, word, next_pc = numbers.word(), numbers.word(), numbers.word()
    privilege, outcome, taker, rd = (numbers.byte() for _ in range(4))
    rd_value, trap_value = numbers.word(), numbers.word()
    accesses = []
    for _ in range(numbers.count(8)):
        address, value, role, size, zeros = (numbers.number(size) for size in (4, 4, 1, 1, 2))
        if role > 3 or size not in (1, 2, 4) or zeros:
            raise BadFile('an access of a role or size that is none')
        accesses.append(Access(address, value, role, size))
    if privilege not in (0, 1, 3) or rd > 31:
        raise BadFile('a record with the privilege %d and rd %d' % (privilege, rd))
    if not (outcome, taker) == (255, 255) and not (outcome < 16 and taker in (0, 1, 3)):
        raise BadFile('a record with the outcome %d and the taker %d' % (outcome, taker))
    return Record(pc, word, next_pc, privilege, outcome, taker, rd, rd_value, trap_value, tuple(accesses))


def ram_of(template):
    """The regions of the template's `ram` lines, in ascending order."""
    regions = []
    for line in template.decode('latin1').split('\n'):
        tokens = line.split('#')[0].split()
        if tokens[:1] == ['ram']:
            try:
                low, high = (int(token, 16 if token.startswith('0x') else 10) & 0xFFFFFFFF for token in tokens[1:])
            except ValueError:
                raise BadFile('a line of RAM that is none: ' + line)
            regions.append((low, high))
    return sorted(regions)
