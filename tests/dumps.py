#!/usr/bin/env python3
"""dumps.py: real stacks. tests/dumps.cpp is built for Arm Linux by the compilers at hand and run by qemu-arm; it tells the frames that GCC's runtime finds from a leaf, and the landing
pad that it takes in each frame that an exception passes. From the first frame's registers and the stack the C library must step to the same frames, register by register, and find
the same pads; the image must pass the audit.

A counter is a return address here, so it is asked for below itself, as the runtime does: 2 for the entry, 1 for the call site. What is not there, or does not build, is left out and said so;
where nothing is, the test fails."""
import glob
import os
import shutil
import subprocess
import sys
import tempfile

import images
from images import HERE, Differs, same

GCC, SYSTEM = "arm-linux-gnueabi-g++", "/usr/arm-linux-gnueabi/include"
TARGETS = ["-marm -march=armv5te", "-mthumb -march=armv7-a", "-marm -march=armv7-a -mfpu=vfpv3-d16 -mfloat-abi=softfp"]


def commands():
    """Which compiler it is, what it makes, and the commands."""
    folders = glob.glob(f"{SYSTEM}/c++/*") + glob.glob(f"{SYSTEM}/c++/*/arm-linux-gnueabi") + [SYSTEM]
    clang = "clang++ --target=arm-linux-gnueabi -mfloat-abi=soft " + " ".join(f"-isystem {folder}" for folder in folders)
    link = f"{GCC} -static -Wl,--wrap=__gxx_personality_v0 {{0}}.o -o {{0}}"
    for target in TARGETS:
        for level in "0 1 2 3 s".split():
            for name, compiler in ((GCC, GCC), ("clang++", clang)):
                yield name, f"{target} -O{level}", [f"{compiler} {target} -O{level} -c {HERE}/dumps.cpp -o {{0}}.o", link]


def hexes(words):
    return [int(word, 16) for word in words]


def compared(library, image, told):
    """How many frames and landing pads agreed."""
    frames = pads = 0
    for line in told.splitlines():
        word, *words = line.split()
        if word == "stack":
            stack_at, stack, before = int(words[0], 16), bytes.fromhex(words[1]), None
        elif word == "frame":
            core = hexes(words)
            if before:
                number, row, after, _ = library.step(image, stack, stack_at, before[:15] + [before[15] - 2], [0] * 32)
                same((number, row[0], after), (0, 0, core), f"step {before[15]:x}")
                frames += 1
            before = core
        elif word == "pad":
            counter, pad = (number & ~1 for number in hexes(words))  # bit 0 says Thumb
            number, row = library.lookup(image, counter - 1)
            same((number, row[2], row[6]), (0, 3, pad), f"lookup {counter:x}")
            pads += 1
    same(word, "kept", "the program's last line")
    same(frames > 0 and pads > 0, True, "the program told no frame or no pad")
    return frames, pads


def main():
    frames, pads, programs, missing = 0, 0, {}, set()
    os.chdir(tempfile.mkdtemp())
    library = images.loaded()
    for compiler, what, steps in commands():
        if not all(shutil.which(needed) for needed in (compiler, GCC, "qemu-arm")):
            missing.add(f"{compiler}, {GCC} or qemu-arm is not here")
            continue
        try:
            image = images.built("dumps", steps)
            told = subprocess.run(["qemu-arm", "./dumps"], check=True, stdout=subprocess.PIPE, text=True).stdout
        except subprocess.CalledProcessError:
            missing.add(f"{compiler} does not build {what}, or it does not run")
            continue
        try:
            same(library.audit(image), (0, [0]), "audit")
            more_frames, more_pads = compared(library, image, told)
        except Differs as why:
            print(f"{compiler} {what}: {why}")
            print("dumps: failed")
            return 1
        frames, pads = frames + more_frames, pads + more_pads
        programs[compiler] = programs.get(compiler, 0) + 1
    for why in sorted(missing):
        print(f"left out: {why}")
    print(f"dumps: {', '.join(f'{n} programs of {c}' for c, n in programs.items())}; {frames} frames and {pads} landing pads as the runtime has them")
    print("dumps: passed" if programs else "dumps: failed")
    return 0 if programs else 1


if __name__ == "__main__":
    sys.exit(main())
