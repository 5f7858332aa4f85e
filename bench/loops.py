"""Endless loops that the measurements play, and one measured run of the program."""
import os
import struct
import tempfile
import time

RAM = 0x40000000
DATA = RAM + 0x2000


def sethi(rd, value):
    return rd << 25 | 4 << 22 | value >> 10


def with_immediate(op, op3, rd, rs1, immediate):
    return op << 30 | rd << 25 | op3 << 19 | rs1 << 14 | 1 << 13 | immediate & 0x1FFF


def with_register(op, op3, rd, rs1, rs2):
    return op << 30 | rd << 25 | op3 << 19 | rs1 << 14 | rs2


def branch(condition, words):
    return condition << 25 | 2 << 22 | words & 0x3FFFFF


NOP = sethi(0, 0)
ALWAYS, NOT_EQUAL, EQUAL = 8, 9, 1


def adds():
    body = [with_register(2, 0x00, 8 + i % 6, 8 + (i + 1) % 6, 8 + (i + 2) % 6) for i in range(30)]
    return body + [branch(ALWAYS, -30), NOP]


def loads_and_stores():
    start = [sethi(1, DATA)]
    body = [with_immediate(3, 0x00 if i % 2 else 0x04, 8 + i % 6, 1, 4 * i) for i in range(28)]
    return start + body + [branch(ALWAYS, -28), NOP]


def branches():
    body = []
    for i in range(8):
        body += [with_immediate(2, 0x14, 0, 8 + i % 4, i), branch(EQUAL if i % 2 else NOT_EQUAL, 2), NOP,
                 with_immediate(2, 0x00, 8 + i % 4, 8 + i % 4, 1)]
    return body + [branch(ALWAYS, -len(body)), NOP]


def image_of(words):
    """An ELF file with one executable segment of these words, and a page of data at 40002000 hex."""
    text = struct.pack(f">{len(words)}I", *words)
    header = struct.pack(">4s12B2H5I6H", b"\x7fELF", 1, 2, 1, *[0] * 9, 2, 2, 1, RAM, 52, 0, 0, 52, 32, 2, 40, 0, 0)
    code = struct.pack(">8I", 1, 116, RAM, RAM, len(text), len(text), 5, 4)
    data = struct.pack(">8I", 1, 116 + len(text), DATA, DATA, 0, 0x1000, 6, 4)
    return header + code + data + text


class Run:
    """One run of the program: its status, seconds, peak memory in MiB, bytes of the report, and instructions of all cores."""

    def __init__(self, program, folder):
        read, write = os.pipe()
        begun = time.monotonic()
        child = os.fork()
        if child == 0:
            os.chdir(folder)
            os.dup2(write, 1)
            os.close(read)
            os.execv(program, [program, "play", "image", "configuration", "script", "schedule"])
        os.close(write)
        head, self.bytes = b"", 0
        while piece := os.read(read, 1 << 20):
            self.bytes += len(piece)
            if len(head) < 65536:
                head += piece
        os.close(read)
        _, status, usage = os.wait4(child, 0)
        self.status = os.waitstatus_to_exitcode(status)
        self.seconds = time.monotonic() - begun
        self.peak = usage.ru_maxrss / 1024
        cores = [line.split() for line in head.split(b"\n") if line.startswith(b"core ")]
        self.instructions = sum(int(line[3]) for line in cores)


def runs_of(program, words, configuration, script, times):
    """So many runs of these words, with a configuration and a script and no schedule."""
    files = {"image": image_of(words), "configuration": configuration.encode(), "script": script.encode(), "schedule": b""}
    with tempfile.TemporaryDirectory() as folder:
        for file, data in files.items():
            with open(os.path.join(folder, file), "wb") as out:
                out.write(data)
        return [Run(program, folder) for _ in range(times)]
