#!/usr/bin/env python3
"""images.py: real images of the compilers at hand (GCC, clang, Rust; several targets, every level of optimisation), each audited, looked up at every counter and stepped from every
second one with drawn registers, by the C library and by tests/paper.py, on its bytes as they are; and audited by ./audit.

What is not there, or does not build, is left out and said so; where nothing is, the test fails."""
import ctypes
import glob
import os
import random
import shutil
import subprocess
import sys
import tempfile

HERE = os.path.dirname(os.path.abspath(__file__))
sys.path[:0] = [HERE, os.path.join(HERE, "../tools")]
import elf2bundle  # noqa: E402
import paper  # noqa: E402

FIRMWARE = os.path.join(HERE, "../firmware")
LIBRARY = os.path.abspath(os.path.join(HERE, "../target/staticlib/libanrukfal.a"))
CLANG = ["armv7a-none-eabi -mfloat-abi=hard -mfpu=vfpv3", "thumbv7em-none-eabihf -mcpu=cortex-m7", "thumbv6m-none-eabi -mcpu=cortex-m0", "armv5te-none-eabi"]
RUST = ["armv7a-none-eabi", "thumbv7em-none-eabihf", "thumbv6m-none-eabi", "armv7-unknown-linux-gnueabihf"]
GCC = ["-mcpu=cortex-m7 -mfpu=fpv5-d16 -mfloat-abi=hard", "-mcpu=cortex-m0", "-mcpu=cortex-a8 -mfpu=vfpv3 -mfloat-abi=hard"]
OBJECTS = "/usr/arm-linux-gnueabi/lib/*.so*"
CSTDINT = "#include <stdint.h>\nnamespace std { using ::uint32_t; }\n"


def commands():
    """What it is, and the commands that make it; the last one's output is {}."""
    link = "ld.lld --unresolved-symbols=ignore-all -Ttext=0x8000 {0}.o -o {0}"
    for target in CLANG:
        for level in "0 1 2 3 s z".split():
            yield "clang++", f"{target} -O{level}", [f"clang++ --target={target} -O{level} -fexceptions -ffreestanding -nostdlib -I. -c {FIRMWARE}/drive.cpp -o {{0}}.o", link]
    for target in RUST:
        for level in "0 1 2 3 s z".split():
            yield "rustc", f"{target} opt-level={level}", [
                f"rustc --edition 2021 --target {target} -C panic=unwind -C force-unwind-tables=yes -C opt-level={level} -C overflow-checks=off --emit obj {FIRMWARE}/drive.rs -o {{0}}.o", link]
    for target in GCC:
        for level in "0 1 2 3 s".split():
            yield "arm-none-eabi-g++", f"{target} -O{level}", [f"arm-none-eabi-g++ {target} -O{level} -fexceptions --specs=nosys.specs {FIRMWARE}/drive.cpp -o {{0}}"]


def taken(name):
    image = elf2bundle.image(elf2bundle.Elf(open(name, "rb").read()))
    return image.index, image.index_at, image.table, image.table_at


def built(name, steps):
    for step in steps:
        subprocess.run(step.format(name).split(), check=True, stdout=subprocess.DEVNULL, stderr=subprocess.DEVNULL, env=dict(os.environ, RUSTC_BOOTSTRAP="1"))
    return taken(name)


class Library:
    def __init__(self, path):
        self.c = ctypes.CDLL(path)

    def image(self, image):
        index, index_at, table, table_at = image
        return index, ctypes.c_size_t(len(index)), index_at, table, ctypes.c_size_t(len(table)), table_at

    def audit(self, image):
        row = (ctypes.c_uint32 * 1)()
        return self.c.anrukfal_audit(*self.image(image), row), list(row)

    def lookup(self, image, counter):
        row = (ctypes.c_uint32 * 9)()
        return self.c.anrukfal_lookup(*self.image(image), ctypes.c_uint32(counter), row), list(row)

    def step(self, image, stack, stack_at, core, vfp):
        row, core, vfp = (ctypes.c_uint32 * 2)(), (ctypes.c_uint32 * 16)(*core), (ctypes.c_uint64 * 32)(*vfp)
        number = self.c.anrukfal_step(*self.image(image), stack, ctypes.c_size_t(len(stack)), ctypes.c_uint32(stack_at), core, vfp, row)
        return number, list(row), list(core), list(vfp)


def loaded():
    """The C library, linked into the folder at hand for Python to load."""
    if not os.path.exists(LIBRARY):
        subprocess.run([os.path.join(HERE, "../tools/libraries"), "anrukfal"], check=True, stdout=subprocess.DEVNULL)
    subprocess.run(["cc", "-shared", "-o", "lib.so", "-Wl,--whole-archive", LIBRARY, "-Wl,--no-whole-archive"], check=True)
    return Library("./lib.so")


class Differs(Exception):
    """Carries the call whose answers differ."""


def same(ours, theirs, call):
    if ours != theirs:
        raise Differs(call)


def compared(library, image, drawn):
    """How many answers agreed; an image of a compiler is sound."""
    index, index_at, table, table_at = image
    whole = index, index_at, table, table_at
    same(paper.audit(*whole), (0, [0]), "audit")
    same(library.audit(image), (0, [0]), "audit")
    first, last = (paper.function_of(index, index_at, k) for k in (0, len(index) // 8 - 1))
    count = 1
    for counter in range(max(first - 4, 0), last + 64):
        same(library.lookup(image, counter), paper.answered(9, paper.lookup, *whole, counter), f"lookup {counter:x}")
        count += 1
        if counter % 2:
            continue
        stack, stack_at = drawn.randbytes(4 * drawn.randrange(1, 80)), 0x20000000
        core = [drawn.choice([stack_at + 4 * drawn.randrange(0, 60), drawn.getrandbits(32)]) for _ in range(15)] + [counter]
        vfp = [drawn.getrandbits(64) for _ in range(32)]
        same(library.step(image, stack, stack_at, core, vfp), paper.step(*whole, stack, stack_at, core, vfp), f"step {counter:x}")
        count += 1
    return count


def audited(name, image):
    """What ./audit says of the file."""
    line = subprocess.run([os.path.join(HERE, "../audit"), name], stdout=subprocess.PIPE, text=True).stdout.split("\n")[0]
    same(line, f"ok {len(image[0]) // 8}", f"./audit says {line}")


def shared_objects(library):
    """Debian's own for Arm Linux, only audited: some of their tables end inside a word."""
    entries = []
    for path in sorted({os.path.realpath(name) for name in glob.glob(OBJECTS)}):
        try:
            image = taken(path)
        except elf2bundle.UNREADABLE:
            continue  # a linker script, or no index
        same(library.audit(image), paper.audit(*image), f"audit of {path}")
        audited(path, image)
        entries.append((len(image[0]) // 8, len(image[2]) % 4 > 0))
    return entries


def main():
    drawn, answers, images, entries, missing = random.Random(7), 0, {}, 0, set()
    os.chdir(tempfile.mkdtemp())
    open("cstdint", "w").write(CSTDINT)
    library = loaded()
    for compiler, what, steps in commands():
        if not shutil.which(compiler) or not shutil.which(steps[-1].split()[0]):
            missing.add(f"{compiler} is not here")
            continue
        try:
            image = built("image", steps)
        except subprocess.CalledProcessError:
            missing.add(f"{compiler} does not build {what}")
            continue
        try:
            answers += compared(library, image, drawn)
            audited("image", image)
        except Differs as why:
            print(f"{compiler} {what}: {why}")
            print("images: failed")
            return 1
        images[compiler] = images.get(compiler, 0) + 1
        entries += len(image[0]) // 8
    try:
        objects = shared_objects(library)
    except Differs as why:
        print(f"{why}\nimages: failed")
        return 1
    for why in sorted(missing):
        print(f"left out: {why}")
    print(f"images: {', '.join(f'{n} of {c}' for c, n in images.items())}; {entries} entries, all sound; {answers} answers agree")
    print(f"images: {len(objects)} shared objects, {sum(n for n, _ in objects)} entries, all sound; {sum(p for _, p in objects)} tables end inside a word")
    print("images: passed" if images else "images: failed")
    return 0 if images else 1


if __name__ == "__main__":
    sys.exit(main())
