"""A QEMU process under the remote protocol of gdb, which is spoken here, with its RAM in a file that both share.

The hart that QEMU starts is set into any state by packets of the stub; no code of a boot or a prologue is run.
RAM is the only thing that an access may reach: PMP allows its regions alone, in each privilege (`Smepmp`, MMWP).
"""
import mmap
import os
import re
import shutil
import socket
import subprocess
import tempfile
import time

from .state import CSR, CSR_NAME, FIXED_CSRS, M, OPEN_CSRS

CSRS = FIXED_CSRS + OPEN_CSRS
# Extensions that the profile lacks.  Other versions than 7.2 have further ones, and some names in lower case; of
# these lists those are switched that the version knows.
SWITCHED_OFF = ('a c d f h zba zbb zbc zbs sstc Zihintpause zihintpause Zifencei zifencei '
                'zawrs zfa zaamo zalrsc svadu').split()
MEMORY_PMP = ('x-epmp', 'smepmp')
VIRT_RAM = 0x80000000               # where the RAM of machine `virt` begins
MSECCFG, MMWP = 0x747, 2
PMP_RWX_TOP_OF_RANGE = 0x0F
SUM = 1 << 18


class NoQemu(Exception):
    """QEMU isn't there, or doesn't start, answer or go on."""


def run_for_text(command):
    try:
        return subprocess.run(command, stdin=subprocess.DEVNULL, stdout=subprocess.PIPE, stderr=subprocess.STDOUT,
                              timeout=60).stdout.decode('latin1')
    except (OSError, subprocess.SubprocessError) as error:
        raise NoQemu('%s can not be run: %s' % (command[0], error))


class Program:
    """A program qemu-system-riscv32 with its version and the switches of its CPU."""

    def __init__(self, path):
        self.path = path
        self.version = run_for_text([path, '--version']).split('\n')[0]
        if 'QEMU' not in self.version:
            raise NoQemu('%s is no QEMU' % path)
        known = re.findall(r'^ *([\w-]+)=<bool>', run_for_text([path, '-device', 'rv32-riscv-cpu,help']), re.M)
        memory_pmp = [name for name in MEMORY_PMP if name in known]
        if not memory_pmp:
            raise NoQemu('the CPU rv32 of %s has none of %s' % (self.version, ', '.join(MEMORY_PMP)))
        self.cpu = 'rv32,pmp=on,%s=on,' % memory_pmp[0] + ','.join(
            name + '=off' for name in SWITCHED_OFF if name in known)


def machine_for(ram):
    """`virt` has its RAM from 0x80000000 on; `none` has nothing but RAM, here all of 4 GiB, and one hart."""
    return 'virt' if ram[0][0] >= VIRT_RAM else 'none'


def ram_regions(ram):
    """The regions, those that touch as one."""
    regions = []
    for low, high in sorted(ram):
        if regions and regions[-1][1] == low:
            regions[-1] = (regions[-1][0], high)
        else:
            regions.append((low, high))
    return regions


def in_hex(value):
    return value.to_bytes(4, 'little').hex()


def from_hex(text):
    return int.from_bytes(bytes.fromhex(text), 'little')


class Qemu:
    """One process, stopped before its first instruction."""

    def __init__(self, program, ram, harts):
        self.ram = list(ram)
        self.machine = machine_for(ram)
        self.harts = harts if self.machine == 'virt' else 1
        self.base = VIRT_RAM if self.machine == 'virt' else 0
        self.size = ram[-1][1] - self.base if self.machine == 'virt' else 1 << 32
        self.process = self.socket = self.memory = None
        self.buffer, self.selected = b'', None
        self.folder = tempfile.mkdtemp(prefix='on_qemu.')
        try:
            self.launch(program)
        except BaseException:
            self.close()
            raise

    def launch(self, program):
        ram_path, socket_path, self.log = (os.path.join(self.folder, name) for name in ('ram', 'socket', 'log'))
        with open(ram_path, 'wb') as file:
            file.truncate(self.size)
        with open(ram_path, 'r+b') as file:
            self.memory = mmap.mmap(file.fileno(), self.size)
        command = [program.path, '-nodefaults', '-display', 'none', '-serial', 'none', '-monitor', 'none', '-S',
                   '-object', 'memory-backend-file,id=ram,size=%d,mem-path=%s,share=on' % (self.size, ram_path),
                   '-machine', self.machine + ',memory-backend=ram', '-cpu', program.cpu, '-accel', 'tcg,thread=single',
                   '-gdb', 'unix:%s,server=on,wait=off' % socket_path]
        if self.machine == 'virt':
            command += ['-bios', 'none', '-smp', str(self.harts)]
        with open(self.log, 'wb') as log:
            self.process = subprocess.Popen(command, stdin=subprocess.DEVNULL, stdout=log, stderr=log)
        self.connect(socket_path)
        self.ask('qSupported:multiprocess+;xmlRegisters=riscv')
        self.numbers = self.register_numbers()
        self.demand(['Qqemu.PhyMemMode:1'])     # addresses of memory packets are physical
        if self.harts > 1:
            self.step(0)            # one thread steps all harts, and it doesn't begin before hart 0 moves
        for hart in range(self.harts):
            self.select(hart)
            self.allow_ram()

    def connect(self, path):
        self.socket = socket.socket(socket.AF_UNIX)
        latest = time.time() + 30
        while True:
            try:
                self.socket.connect(path)
                break
            except OSError:
                if self.process.poll() is not None or time.time() > latest:
                    raise NoQemu('QEMU did not start: ' + self.messages())
                time.sleep(0.01)
        self.socket.settimeout(30)

    def messages(self):
        with open(self.log, errors='replace') as log:
            return ' '.join(log.read().split())

    # ---- packets

    def send(self, packets):
        frames = b''.join(b'$%s#%02x' % (packet.encode(), sum(packet.encode()) & 255) for packet in packets)
        try:
            self.socket.sendall(frames)
        except OSError as error:
            raise NoQemu('QEMU is gone: %s %s' % (error, self.messages()))

    def receive(self):
        while True:
            begin = self.buffer.find(b'$')
            end = self.buffer.find(b'#', begin) if begin >= 0 else -1
            if end >= 0 and len(self.buffer) >= end + 3:
                packet, self.buffer = self.buffer[begin + 1:end], self.buffer[end + 3:]
                escaped = re.sub(rb'\}(.)', lambda match: bytes([match[1][0] ^ 0x20]), packet, flags=re.S)
                return escaped.decode('latin1')
            try:
                more = self.socket.recv(65536)
            except OSError as error:
                raise NoQemu('QEMU does not answer: %s' % error)
            if not more:
                raise NoQemu('QEMU ended: ' + self.messages())
            self.buffer += more

    def ask(self, packet):
        self.send([packet])
        return self.receive()

    def ask_all(self, packets):
        answers = []
        for i in range(0, len(packets), 32):
            self.send(packets[i:i + 32])
            answers += [self.receive() for _ in packets[i:i + 32]]
        return answers

    def demand(self, packets):
        for packet, answer in zip(packets, self.ask_all(packets)):
            if answer != 'OK':
                raise NoQemu('QEMU answers %s to %s' % (answer, packet))

    def register_numbers(self):
        """The number of each register that the stub describes, by its name."""
        numbers, number = {}, 0
        for annex in re.findall(r'href="([^"]+)"', self.description('target.xml')):
            for tag in re.findall(r'<reg [^>]+>', self.description(annex)):
                given = re.search(r'regnum="([^"]+)"', tag)
                number = int(given[1], 0) if given else number
                numbers[re.search(r'name="([^"]+)"', tag)[1]] = number
                number += 1
        # CSRs stand in the order of their addresses; this one is there, though it isn't described.
        numbers.setdefault('mseccfg', numbers['mstatus'] - CSR['mstatus'] + MSECCFG)
        return numbers

    def description(self, annex):
        text = ''
        while True:
            part = self.ask('qXfer:features:read:%s:%x,1000' % (annex, len(text)))
            text += part[1:]
            if part[:1] != 'm':
                return text

    def get(self, name):
        return 'p%x' % self.numbers[name]

    def set(self, name, value):
        return 'P%x=%s' % (self.numbers[name], in_hex(value))

    def select(self, hart):
        if self.harts > 1 and hart != self.selected:
            self.demand(['Hgp1.%x' % (hart + 1)])
        self.selected = hart

    # ---- state

    def allow_ram(self):
        packets, settings = [self.set('priv', M)], [0] * 16
        for i, (low, high) in enumerate(ram_regions(self.ram)):
            packets += [self.set('pmpaddr%d' % (2 * i), low >> 2), self.set('pmpaddr%d' % (2 * i + 1), high >> 2)]
            settings[2 * i + 1] = PMP_RWX_TOP_OF_RANGE
        for i in range(4):
            packets.append(self.set('pmpcfg%d' % i, int.from_bytes(bytes(settings[4 * i:4 * i + 4]), 'little')))
        self.demand(packets + [self.set('mseccfg', MMWP)])

    def set_hart(self, hart, state):
        """Puts a hart into a state.  That mstatus is set twice, with SUM turned, drops kept translations."""
        self.select(hart)
        mstatus = state.csrs[CSR['mstatus']]
        packets = [self.set('priv', M), 'G' + ''.join(map(in_hex, state.registers)) + in_hex(state.pc),
                   self.set('mstatus', mstatus ^ SUM)]
        packets += [self.set(CSR_NAME[csr], state.csrs[csr]) for csr in CSRS[1:]]
        self.demand(packets + [self.set('mstatus', mstatus), self.set('priv', state.privilege)])

    def hart(self, hart):
        """What a hart holds: pc, privilege, x0 to x31, and the CSRs by number."""
        self.select(hart)
        answers = self.ask_all(['g', self.get('priv')] + [self.get(CSR_NAME[csr]) for csr in CSRS])
        registers = [from_hex(answers[0][8 * i:8 * i + 8]) for i in range(33)]
        privilege, csrs = from_hex(answers[1]), {}
        for csr, answer in zip(CSRS, answers[2:]):
            if len(answer) < 8:     # satp in S with TVM: read as M
                answer = self.ask_all([self.set('priv', M), self.get(CSR_NAME[csr]), self.set('priv', privilege)])[1]
            csrs[csr] = from_hex(answer)
        return registers[32], privilege, registers[:32], csrs

    def step(self, hart):
        self.select(hart)
        answer = self.ask('vCont;s:p1.%x' % (hart + 1) if self.harts > 1 else 'vCont;s')
        if not answer.startswith('T05'):
            raise NoQemu('QEMU answers %s to a step' % answer)

    # ---- memory

    def region(self, low, high):
        return self.memory[low - self.base:high - self.base]

    def word(self, address):
        return int.from_bytes(self.region(address, address + 4), 'little')

    def fill_region(self, low, data):
        """Puts bytes into RAM from which nothing was executed yet."""
        self.memory[low - self.base:low - self.base + len(data)] = bytes(data)

    def set_word(self, address, value):
        """Puts a word into RAM, and drops what QEMU has made of code there."""
        self.demand(['M%x,4:%s' % (address, in_hex(value))])

    def close(self):
        if self.process is not None:
            self.process.kill()
            self.process.wait()
        if self.socket is not None:
            self.socket.close()
        if self.memory is not None:
            self.memory.close()
        shutil.rmtree(self.folder, ignore_errors=True)

    def __enter__(self):
        return self

    def __exit__(self, *_):
        self.close()
