"""Harts, memory and records as data."""
import collections

U, S, M = 0, 1, 3
PRIVILEGE = {U: 'u', S: 's', M: 'm'}
RETIRED = 255                       # the outcome of a record, and its taker, where the instruction retired
ROLES = ('fetch', 'walk', 'load', 'store')
FETCH, WALK, LOAD, STORE = range(4)

CSR = dict(sstatus=0x100, stvec=0x105, sscratch=0x140, sepc=0x141, scause=0x142, stval=0x143, satp=0x180, mstatus=0x300,
           medeleg=0x302, mtvec=0x305, mscratch=0x340, mepc=0x341, mcause=0x342, mtval=0x343, mhartid=0xF14)
CSR_NAME = {number: name for name, number in CSR.items()}
FIXED_CSRS = (CSR['mstatus'], CSR['medeleg'], CSR['satp'])      # every test gives their values
OPEN_CSRS = tuple(CSR[name] for name in
                  'stvec sscratch sepc scause stval mtvec mscratch mepc mcause mtval'.split())
SSTATUS_BITS, MSTATUS_BITS, MEDELEG_BITS = 0x000C0122, 0x005E19AA, 0x0000B3FF
SUPERVISOR_CAUSES = frozenset(range(10)) | {12, 13, 15}
MACHINE_CAUSES = SUPERVISOR_CAUSES | {11}


def is_legal(csr, value):
    """Whether the profile lets a CSR hold a value (docs/FILE.md, "Legal values")."""
    name = CSR_NAME[csr]
    if name == 'mstatus':
        return not value & ~MSTATUS_BITS and value >> 11 & 3 != 2
    if name == 'sstatus':
        return not value & ~SSTATUS_BITS
    if name == 'medeleg':
        return not value & ~MEDELEG_BITS
    if name == 'satp':
        return value == 0 or value >> 20 == 0x800
    if name in ('stvec', 'sepc', 'mtvec', 'mepc'):
        return value % 4 == 0
    if name in ('scause', 'mcause'):
        return value in (SUPERVISOR_CAUSES if name == 'scause' else MACHINE_CAUSES)
    return name != 'mhartid'


Access = collections.namedtuple('Access', 'address value role size')

Record = collections.namedtuple('Record', 'pc word next privilege outcome taker rd rd_value trap_value accesses')


def record_text(record):
    """The record as a report writes it (docs/REPORT.md), from the pc on."""
    parts = ['pc %08x %s %08x' % (record.pc, PRIVILEGE[record.privilege], record.word)]
    if record.outcome == RETIRED:
        parts.append('retire')
    else:
        parts.append('trap %d %08x to %s' % (record.outcome, record.trap_value, PRIVILEGE[record.taker]))
    if record.rd:
        parts.append('x%d=%08x' % (record.rd, record.rd_value))
    parts += ['%s@%08x:%d=%0*x' % (ROLES[a.role], a.address, a.size, 8, a.value) for a in record.accesses]
    return ' '.join(parts) + ' next %08x' % record.next


class Hart:
    """A hart with a value in every place: `registers` has x0 to x31, `csrs` has 13 CSRs by number."""

    def __init__(self, number, pc, privilege, registers, csrs):
        self.number, self.pc, self.privilege = number, pc, privilege
        self.registers, self.csrs = list(registers), dict(csrs)

    def copy(self):
        return Hart(self.number, self.pc, self.privilege, self.registers, self.csrs)


class Memory:
    """RAM, each region as an array of bytes."""

    def __init__(self, ram, page):
        self.ram = tuple(ram)
        self.regions = {low: bytearray(page * ((high - low) // len(page))) for low, high in ram}

    def has(self, address):
        return any(low <= address < high for low, high in self.ram)

    def _at(self, address):
        for low, high in self.ram:
            if low <= address < high:
                return self.regions[low], address - low
        raise KeyError('%08x' % address)

    def word(self, address):
        region, offset = self._at(address & ~3)
        return int.from_bytes(region[offset:offset + 4], 'little')

    def set_word(self, address, value):
        region, offset = self._at(address & ~3)
        region[offset:offset + 4] = value.to_bytes(4, 'little')


class Changes:
    """A memory as one step leaves it: the words that the step changes, over another memory."""

    def __init__(self, base):
        self.base, self.ram, self.words = base, base.ram, {}

    def has(self, address):
        return self.base.has(address)

    def word(self, address):
        address &= ~3
        return self.words[address] if address in self.words else self.base.word(address)

    def set_word(self, address, value):
        self.words[address & ~3] = value

    def load(self, address, size):
        return self.word(address) >> 8 * (address & 3) & (1 << 8 * size) - 1

    def store(self, address, value, size):
        shift = 8 * (address & 3)
        mask = ((1 << 8 * size) - 1) << shift
        self.set_word(address, self.word(address) & ~mask | value << shift & mask)

    def keep(self):
        for address, value in self.words.items():
            self.base.set_word(address, value)
