"""The instructions of a program, and those that it executes under the emulator. The program is linked statically, at fixed addresses."""
import re
import shutil
import subprocess

OBJDUMP = shutil.which("x86_64-linux-gnu-objdump") or "objdump"


def disassembled(program):
    """Each instruction and its function, by address."""
    text, code, function, name = subprocess.run([OBJDUMP, "-d", "--no-show-raw-insn", program], capture_output=True, text=True, check=True).stdout, {}, {}, None
    for line in text.splitlines():
        if head := re.match(r"[0-9a-f]+ <(.*)>:", line):
            name = head[1]
        elif found := re.match(r"\s+([0-9a-f]+):\s+(.*)", line):
            code[int(found[1], 16)], function[int(found[1], 16)] = found[2].split("#")[0].strip(), name
    return code, function


def executed(program, *words):
    """The addresses that a run executes, one by one."""
    run = subprocess.Popen(["qemu-x86_64", "-singlestep", "-d", "nochain,exec", "-D", "/dev/stdout", program, *map(str, words)], stdout=subprocess.PIPE, text=True)
    for line in run.stdout:
        if found := re.search(r"\[[0-9a-f]+/([0-9a-f]+)/", line):
            yield int(found[1], 16)
    if run.wait() != 0:
        raise SystemExit(f"{program} has failed")
