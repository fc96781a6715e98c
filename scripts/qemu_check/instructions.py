"""The instruction table of docs/PROFILE.md, and the reading of an instruction word by it."""
import collections
import functools

WORD = 0xFFFFFFFF

Instruction = collections.namedtuple('Instruction', 'name form rd rs1 rs2 imm csr')


def sign_extended(value, bits):
    """The low `bits` bits of a value as a signed number, in a word."""
    value &= (1 << bits) - 1
    return (value - (1 << bits)) & WORD if value >> (bits - 1) else value


def signed(word):
    return word - (1 << 32) if word >> 31 else word


# name: (form, opcode, funct3, funct7).  The forms are the manual's R, I, S, B, U, J, and beside them
# `shift` (I with funct7), `csr` and `csri` (with a register, with an immediate), `fence`, and `whole` (one word).
TABLE = {
    'lui': ('U', 0x37, 0, 0), 'auipc': ('U', 0x17, 0, 0), 'jal': ('J', 0x6F, 0, 0), 'jalr': ('I', 0x67, 0, 0),
    'fence': ('fence', 0x0F, 0, 0), 'sfence.vma': ('sfence', 0x73, 0, 9),
}
WHOLE = {0x00000073: 'ecall', 0x00100073: 'ebreak', 0x30200073: 'mret', 0x10200073: 'sret',
         0x00000000: 'illegal', 0xFFFFFFFF: 'illegal'}


def _rows(form, opcode, names, funct3s, funct7=0):
    for name, funct3 in zip(names.split(), funct3s):
        TABLE[name] = (form, opcode, funct3, funct7)


_rows('B', 0x63, 'beq bne blt bge bltu bgeu', (0, 1, 4, 5, 6, 7))
_rows('I', 0x03, 'lb lh lw lbu lhu', (0, 1, 2, 4, 5))
_rows('S', 0x23, 'sb sh sw', (0, 1, 2))
_rows('I', 0x13, 'addi slti sltiu xori ori andi', (0, 2, 3, 4, 6, 7))
_rows('shift', 0x13, 'slli srli', (1, 5))
_rows('shift', 0x13, 'srai', (5,), 0x20)
_rows('R', 0x33, 'add sll slt sltu xor srl or and', range(8))
_rows('R', 0x33, 'sub sra', (0, 5), 0x20)
_rows('R', 0x33, 'mul mulh mulhsu mulhu div divu rem remu', range(8), 1)
_rows('csr', 0x73, 'csrrw csrrs csrrc', (1, 2, 3))
_rows('csri', 0x73, 'csrrwi csrrsi csrrci', (5, 6, 7))

LOADS = {'lb': (1, True), 'lh': (2, True), 'lw': (4, False), 'lbu': (1, False), 'lhu': (2, False)}  # size, signed
STORES = {'sb': 1, 'sh': 2, 'sw': 4}


# The register fields of each form.
FIELDS = {'R': ('rd', 'rs1', 'rs2'), 'I': ('rd', 'rs1'), 'shift': ('rd', 'rs1'), 'S': ('rs1', 'rs2'),
          'B': ('rs1', 'rs2'), 'U': ('rd',), 'J': ('rd',), 'csr': ('rd', 'rs1'), 'csri': ('rd',), 'fence': (),
          'sfence': ('rs1', 'rs2')}


@functools.lru_cache(1 << 16)
def decode(word):
    """The instruction that a word is, or None where the table lacks it."""
    if word in WHOLE:
        return Instruction(WHOLE[word], 'whole', 0, 0, 0, 0, 0)
    fields = {'rd': word >> 7 & 31, 'rs1': word >> 15 & 31, 'rs2': word >> 20 & 31}
    for name, (form, opcode, funct3, funct7) in TABLE.items():
        if word & 127 != opcode:
            continue
        if form not in ('U', 'J') and word >> 12 & 7 != funct3:
            continue
        if form in ('R', 'shift', 'sfence') and word >> 25 != funct7:
            continue
        if form == 'fence' and (fields['rd'] or fields['rs1'] or word >> 28) or form == 'sfence' and fields['rd']:
            continue
        rd, rs1, rs2 = (fields[field] if field in FIELDS[form] else 0 for field in ('rd', 'rs1', 'rs2'))
        return Instruction(name, form, rd, rs1, rs2, immediate(form, word), word >> 20)
    return None


def immediate(form, word):
    """The immediate of a form; of `csri` it is the field of rs1, of `shift` that of rs2."""
    if form == 'I':
        return sign_extended(word >> 20, 12)
    if form == 'S':
        return sign_extended(word >> 25 << 5 | word >> 7 & 31, 12)
    if form == 'B':
        return sign_extended((word >> 31) << 12 | (word >> 7 & 1) << 11 | (word >> 25 & 63) << 5 | (word >> 8 & 15) << 1, 13)
    if form == 'U':
        return word & 0xFFFFF000
    if form == 'J':
        return sign_extended((word >> 31) << 20 | (word >> 12 & 255) << 12 | (word >> 20 & 1) << 11
                             | (word >> 21 & 1023) << 1, 21)
    return {'shift': word >> 20 & 31, 'csri': word >> 15 & 31}.get(form, 0)


def compute(name, x, y):
    """The result of an instruction of the forms R, I and shift, of its two operands."""
    results = {
        'add': lambda: x + y, 'sub': lambda: x - y, 'xor': lambda: x ^ y, 'or': lambda: x | y, 'and': lambda: x & y,
        'sll': lambda: x << (y & 31), 'srl': lambda: x >> (y & 31), 'sra': lambda: signed(x) >> (y & 31),
        'slt': lambda: int(signed(x) < signed(y)), 'sltu': lambda: int(x < y),
        'mul': lambda: x * y, 'mulh': lambda: signed(x) * signed(y) >> 32,
        'mulhsu': lambda: signed(x) * y >> 32, 'mulhu': lambda: x * y >> 32,
        'div': lambda: quotient(signed(x), signed(y)), 'divu': lambda: x // y if y else WORD,
        'rem': lambda: signed(x) - signed(y) * quotient(signed(x), signed(y)) if y else x,
        'remu': lambda: x % y if y else x,
    }
    return results[name]() & WORD


def quotient(a, b):
    """Division that rounds towards zero; by zero it is -1."""
    if b == 0:
        return -1
    return abs(a) // abs(b) * (1 if (a < 0) == (b < 0) else -1)


def is_taken(name, x, y):
    return {'beq': x == y, 'bne': x != y, 'blt': signed(x) < signed(y), 'bge': signed(x) >= signed(y),
            'bltu': x < y, 'bgeu': x >= y}[name]
