"""Calls GNU's assembler and its companions, and qemu-riscv64, and spells instructions as they do.

They are Debian's binutils-riscv64-linux-gnu, gcc-riscv64-linux-gnu and qemu-user, or the programs in the variables AS, LD,
OBJCOPY, OBJDUMP, READELF, NM, CC and QEMU.
"""
import os
import re
import shutil
import subprocess
import sys

TOP = os.path.dirname(os.path.dirname(os.path.realpath(__file__)))
KDBSIM = os.environ.get("KDBSIM", f"{TOP}/kdbsim")
PREFIX = "riscv64-linux-gnu-"
TOOLS = {name: PREFIX + name.lower() for name in ("AS", "LD", "OBJCOPY", "OBJDUMP", "READELF", "NM")}
TOOLS |= {"CC": f"{PREFIX}gcc", "QEMU": "qemu-riscv64"}
FLAGS = ["-march=rv64ima_zicsr_zifencei", "-mno-relax"]
SETS = {"i": 8, "o": 4, "r": 2, "w": 1}
ABI = "zero ra sp gp tp t0 t1 t2 s0 s1 a0 a1 a2 a3 a4 a5 a6 a7 s2 s3 s4 s5 s6 s7 s8 s9 s10 s11 t3 t4 t5 t6".split()


def stop(why):
    sys.exit(f"{os.path.basename(sys.argv[0])}: {why}")


def tried(tool, *words):
    """Exit status, standard output and standard error of a program."""
    program = os.environ.get(tool, TOOLS[tool])
    if not shutil.which(program):
        stop(f"{program} isn't there; install binutils-riscv64-linux-gnu, gcc-riscv64-linux-gnu and qemu-user")
    ran = subprocess.run([program, *words], stdout=subprocess.PIPE, stderr=subprocess.PIPE)
    return ran.returncode, ran.stdout, ran.stderr.decode(errors="replace")


def call(tool, *words):
    """The standard output of a program that has to succeed."""
    status, output, errors = tried(tool, *words)
    return output if status == 0 else stop(f"{tool} {' '.join(words)}: status {status}\n{errors}")


def kdbsim(*words):
    """Exit status and standard output of kdbsim."""
    ran = subprocess.run([KDBSIM, *words], stdin=subprocess.DEVNULL, stdout=subprocess.PIPE)
    return ran.returncode, ran.stdout.decode("latin-1")


def fence_sets(number):
    """The letters of `fence` for four bits."""
    return "".join(letter for letter, bit in SETS.items() if number & bit) or "0"


def order(aq, rl):
    return ".aqrl" if aq and rl else ".aq" if aq else ".rl" if rl else ""


def written(lines, path):
    with open(path, "w") as out:
        out.write("".join(f"{it}\n" for it in lines))
    return path


def assembled(lines, room):
    """The words that GNU as makes of these lines; the object file stays as words.o."""
    source = written([".option norvc", *lines], f"{room}/words.s")
    call("AS", *FLAGS, source, "-o", f"{room}/words.o")
    call("OBJCOPY", "-O", "binary", "-j", ".text", f"{room}/words.o", f"{room}/words.bin")
    data = open(f"{room}/words.bin", "rb").read()
    return [int.from_bytes(data[at : at + 4], "little") for at in range(0, len(data), 4)]


def disassembled(room, *options):
    """Address, word, name and operands of each instruction of words.o, as objdump prints them."""
    text = call("OBJDUMP", "-d", "-z", *options, f"{room}/words.o").decode()
    for at, word, rest in re.findall(r"^ *([0-9a-f]+):\t([0-9a-f]{8}) +\t(.*)$", text, re.M):
        name, _, operands = re.sub(r"\s*[<#].*", "", rest).partition("\t")
        yield int(at, 16), int(word, 16), name, operands


def distance(target, at):
    """From an address to a target that objdump prints modulo 2^64."""
    return (int(target, 16) - at + 2**63) % 2**64 - 2**63


class Counts:
    """Counts what passed and failed, and prints what failed."""

    def __init__(self):
        self.counts = [0, 0]

    def report(self, right, what):
        self.counts[not right] += 1
        if not right:
            print(f"failed: {what}")

    def end(self):
        print(f"{self.counts[0]} passed, {self.counts[1]} failed")
        sys.exit(self.counts[1] > 0)
