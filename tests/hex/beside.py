"""Intel HEX files of hexfile, objcopy and srec_cat, each read by the others; speed and memory on 10 MB.

The environment variable HEXFILE has the words that start hexfile. All files come from fixed seeds."""

import fcntl
import os
import random
import shlex
import shutil
import struct
import subprocess
import sys
import tempfile
import termios
import time

IMAGE = 2624
TEXT = 7228
WORDS = shlex.split(os.environ["HEXFILE"])
EMULATED = os.path.basename(WORDS[0]).startswith("qemu")
# How many times the seconds of objcopy hexfile may take: for records in any order, and for records that follow one another,
# which objcopy joins as they come. An emulator takes many times as long.
ANY_ORDER, RISING = (30, 100) if EMULATED else (3, 10)
# Kilobytes by which two peaks may differ; an emulator's own memory goes with what it has translated.
NOISE = 4096 if EMULATED else 64
# Seconds after which a program counts as hanging.
WAIT = 120

passed = failed = 0


def one(title, holds):
    """Counts one check."""
    global passed, failed
    if holds:
        passed += 1
    else:
        failed += 1
        print("FAILED:", title)


def ran(words, given=b""):
    """What a command prints, and what it says on standard error; none where its exit status is not 0."""
    try:
        done = subprocess.run(words, input=given, capture_output=True, timeout=WAIT)
    except subprocess.TimeoutExpired:
        return None, b"it has not ended"
    return (done.stdout if done.returncode == 0 else None), done.stderr


def hexfile(*words, given=b""):
    """What hexfile prints where it says nothing else."""
    printed, errors = ran(WORDS + list(words), given)
    return printed if errors == b"" else None


def is_refused(number, line, *words):
    """Whether hexfile refuses a file by a number and names the line."""
    printed, errors = ran(WORDS + list(words))
    return printed == b"refused %d\n" % number and errors.startswith(b"hexfile: line %d: " % line)


def put(name, content):
    """Writes a file; its name."""
    with open(name, "wb") as file:
        file.write(content)
    return name


def made(name, words):
    """What another program wrote to a file, or none where it did not."""
    if os.path.exists(name):
        os.remove(name)
    printed, errors = ran(words)
    if printed is None or not os.path.exists(name):
        print("%s: %s" % (shlex.join(words), errors.decode(errors="replace").strip()))
        return None
    with open(name, "rb") as file:
        return file.read()


def record(address, data, kind=0):
    """The line of a record."""
    head = bytes([len(data), address >> 8, address & 255, kind]) + data
    return b":%s\n" % (head + bytes([-sum(head) & 255])).hex().upper().encode()


def images():
    """Images with their names: of one value, counting, one byte in others, and any by fixed seeds."""
    yield "FFh", b"\xFF" * IMAGE
    yield "zeros", bytes(IMAGE)
    yield "counting", bytes(place & 255 for place in range(IMAGE))
    yield "counting down", bytes(~place & 255 for place in range(IMAGE))
    yield "rows", bytes(place >> 4 & 255 for place in range(IMAGE))
    yield "the first byte alone", b"\x00" + b"\xFF" * (IMAGE - 1)
    yield "the last byte alone", bytes(IMAGE - 1) + b"\xFF"
    for seed in range(1, 7):
        yield "seed %d" % seed, random.Random(seed).randbytes(IMAGE)


def beside_objcopy():
    """objcopy reads ours, and we read its."""
    for name, image in images():
        put("image", image)
        ours = hexfile("write", "image")
        one("%s: an image is written, 7,228 characters" % name, ours is not None and len(ours) == TEXT)
        put("ours.hex", ours or b"")
        back = made("back", ["objcopy", "-I", "ihex", "-O", "binary", "ours.hex", "back"])
        one("%s: objcopy reads our file" % name, back == image)
        its = made("its.hex", ["objcopy", "-I", "binary", "-O", "ihex", "image", "its.hex"]) or b""
        one("%s: objcopy writes CR LF" % name, its.count(b"\r\n") == its.count(b"\n") == 165)
        one("%s: we read the file of objcopy" % name, hexfile("read", "its.hex") == image)
        one("%s: we read it from standard input" % name, hexfile("read", given=its) == image)
        one("%s: the file of objcopy without CR is ours" % name, its.replace(b"\r", b"") == ours)
        one("%s: we read our own file" % name, hexfile("read", given=ours or b"") == image)
    # A part of the image at another place: the rest is FFh.
    for seed, (address, size) in enumerate([(0x0100, 100), (0x0A3F, 1), (0x07FF, 577), (0, 17)]):
        part = put("part", random.Random(100 + seed).randbytes(size))
        place = ["--change-section-address", ".data=%d" % address]
        made("part.hex", ["objcopy", "-I", "binary", "-O", "ihex"] + place + [part, "part.hex"])
        image = bytearray(b"\xFF" * IMAGE)
        with open(part, "rb") as file:
            image[address : address + size] = file.read()
        one("%d bytes from %04Xh on" % (size, address), hexfile("read", "part.hex") == bytes(image))
    # What lies above, and records that we do not have.
    put("part", b"\x5A" * 16)
    for title, flags, number, line in [
        ("data from 0A40h on", ["--change-section-address", ".data=0x0A40"], 19, 1),
        ("data over 0A3Fh", ["--change-section-address", ".data=0x0A38"], 19, 1),
        ("an extended segment address", ["--change-section-address", ".data=0x10000"], 18, 1),
        ("an extended linear address", ["--change-section-address", ".data=0x80000000"], 18, 1),
        ("a start address", ["--set-start", "0x0100"], 18, 2),
    ]:
        made("part.hex", ["objcopy", "-I", "binary", "-O", "ihex"] + flags + ["part", "part.hex"])
        one("objcopy writes %s: %d of line %d" % (title, number, line), is_refused(number, line, "read", "part.hex"))


def beside_srec_cat():
    """srec_cat reads ours, and we read its files of 16-bit addresses."""
    for name, image in images():
        put("image", image)
        put("ours.hex", hexfile("write", "image") or b"")
        back = made("back", ["srec_cat", "ours.hex", "-intel", "-o", "back", "-binary"])
        one("%s: srec_cat reads our file" % name, back == image)
        for size in [1, 16, 32, 255]:
            write = ["srec_cat", "image", "-binary", "-o", "its.hex", "-intel", "-address-length=2", "-obs=%d" % size]
            its = made("its.hex", write) or b""
            one("%s: we read records of %d bytes" % (name, size), hexfile("read", given=its) == image)
            if size == 16:
                one("%s: such a file is ours" % name, its == hexfile("write", "image"))
        for length in [3, 4]:
            write = ["srec_cat", "image", "-binary", "-o", "its.hex", "-intel", "-address-length=%d" % length]
            made("its.hex", write)
            one("%s: an extended address of srec_cat, 18" % name, is_refused(18, 1, "read", "its.hex"))


def big(size, shuffled):
    """A file of at least so many characters that gives every byte again and again, and its image."""
    rng = random.Random(110)
    lines, length, image = [], 0, b""
    while length < size:
        # Records in any order that do not overlap in one pass over the image, and do from pass to pass.
        image = rng.randbytes(IMAGE)
        rows = [record(place, image[place : place + 16]) for place in range(0, IMAGE, 16)]
        if shuffled:
            rng.shuffle(rows)
        lines += rows
        length += TEXT - 12
    return b"".join(lines) + b":00000001FF\n", image


def seconds(words, output):
    """The least seconds of some runs of a command with its output in a file; none where one fails."""
    best = None
    for _ in range(5):
        with open(output, "wb") as file:
            began = time.perf_counter()
            done = subprocess.run(words, stdout=file, stderr=subprocess.DEVNULL)
            took = time.perf_counter() - began
        if done.returncode != 0:
            return None
        best = took if best is None else min(best, took)
    return best


def speed():
    """Ten million characters, beside objcopy."""
    for title, shuffled, most in [("records in any order", True, ANY_ORDER), ("rising records", False, RISING)]:
        text, image = big(10_000_000, shuffled)
        put("big.hex", text)
        ours = seconds(WORDS + ["read", "big.hex"], "ours")
        # It writes the file that it names itself, and nothing else.
        its = seconds(["objcopy", "-I", "ihex", "-O", "binary", "big.hex", "its"], "nothing")
        contents = []
        for name in ["ours", "its"]:
            with open(name, "rb") as file:
                contents.append(file.read())
        one("10 MB, %s: hexfile reads the image" % title, ours is not None and contents[0] == image)
        one("10 MB, %s: objcopy reads the same" % title, its is not None and contents[1] == image)
        if ours is not None and its is not None:
            print("10 MB, %s: hexfile %.3f s, objcopy %.3f s; at most %d times as long" % (title, ours, its, most))
        one("10 MB, %s: hexfile is as fast as asked" % title, ours is not None and its is not None and ours <= most * its)


def peak(text, image):
    """The peaks of a process that reads a file, in kilobytes, taken when all was read and the end has not come: of its own
    memory, which leaves out the pages of programs and libraries that are mapped in, of all resident memory, and of all that
    is mapped."""
    process = subprocess.Popen(WORDS + ["read"], stdin=subprocess.PIPE, stdout=subprocess.PIPE, bufsize=0)
    found = {}
    try:
        for place in range(0, len(text), 32768):
            process.stdin.write(text[place : place + 32768])
        began = time.monotonic()
        while time.monotonic() - began < WAIT:
            left = fcntl.ioctl(process.stdin, termios.FIONREAD, struct.pack("i", 0))
            if struct.unpack("i", left)[0] == 0:
                break
            time.sleep(0.001)
        # What was read last is worked on.
        time.sleep(0.05)
        with open("/proc/%d/status" % process.pid, encoding="ascii") as file:
            for line in file:
                name, _, value = line.partition(":")
                if value.endswith(" kB\n"):
                    found[name] = int(value.split()[0])
    except BrokenPipeError:
        pass
    printed, _ = process.communicate(timeout=WAIT)
    if printed != image or "VmHWM" not in found:
        return None
    return found["VmHWM"] - found["RssFile"], found["VmHWM"], found["VmPeak"]


def memory():
    """The same peak for a short and a long file."""
    least = []
    for size in [1_000_000, 10_000_000]:
        text, image = big(size, True)
        found = [peak(text, image) for _ in range(3)]
        one("%d MB from standard input: the image" % (size // 1_000_000), None not in found)
        if None not in found:
            least.append([min(column) for column in zip(*found)])
            peaks = (size // 1_000_000, *least[-1])
            print("peak memory of hexfile for %d MB: %d KB of its own, %d KB resident, %d KB mapped" % peaks)
    same = len(least) == 2 and all(abs(least[0][column] - least[1][column]) <= NOISE for column in [0, 2])
    one("the peak memory is the same for 1 MB and 10 MB, to %d KB" % NOISE, same)


def main():
    with tempfile.TemporaryDirectory() as folder:
        os.chdir(folder)
        beside_objcopy()
        if shutil.which("srec_cat"):
            beside_srec_cat()
        else:
            print("srec_cat is missing (Debian: srecord): what it reads and writes is not tried and not counted")
        speed()
        memory()
        os.chdir("/")
    print("%d passed, %d failed" % (passed, failed))
    sys.exit(1 if failed else 0)


main()
