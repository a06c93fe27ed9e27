"""Images and listings for the test of tools/page, and a plain count of what a listing says."""
import random

ENTRIES = [0x0000, 0x0003, 0x000B, 0x0013, 0x001B, 0x0023, 0x002B, 0x0033, 0x003B, 0x0043, 0x004B, 0x0130]
# First bytes of instructions that go on, by their sizes.
PLAIN = [(0x00, 1), (0x64, 1), (0x74, 1), (0xC0, 1), (0xE0, 1), (0x30, 1), (0x02, 2), (0x12, 2), (0x81, 2), (0x62, 2), (0x22, 3)]
CODE, TABLES = 0x480, 0x3000


def game(seed=2):
    """An image like a game's, of 16,384 bytes: vectors, an icon, routines with branches and calls, tables, and zeros at the end."""
    chosen = random.Random(seed)
    image = bytearray(16384)
    starts = []
    at = CODE
    while at < TABLES:
        starts.append(at)
        at = routine(image, at, starts, chosen)
        if chosen.random() < .3:
            size = chosen.randrange(4, 40)
            image[at:at + size] = bytes(chosen.randrange(256) for _ in range(size))
            at += size
    for entry in ENTRIES:
        image[entry:entry + 3] = b"\x21" + chosen.choice(starts).to_bytes(2, "big")
    image[0x200:0x400] = bytes(chosen.choice((0x00, 0x0F, 0xF0, 0xFF)) for _ in range(0x200))
    image[TABLES + 0x80:0x3800] = bytes(chosen.randrange(256) for _ in range(0x3800 - TABLES - 0x80))
    return bytes(image)


def routine(image, at, starts, chosen):
    """Writes a routine; where the next can begin. Now and then a branch leads into the middle of an instruction."""
    begun = [at]
    for _ in range(chosen.randrange(5, 40)):
        kind = chosen.random()
        if kind < .12:
            to = chosen.choice(begun[-20:]) + (chosen.random() < .1)
            if at + 2 - to <= 128:
                image[at:at + 2] = bytes((chosen.choice((0x80, 0x90)), (to - at - 2) & 0xFF))
                at += 2
        elif kind < .2:
            image[at:at + 3] = b"\x20" + chosen.choice(starts).to_bytes(2, "big")
            at += 3
        else:
            first, size = chosen.choice(PLAIN)
            image[at:at + size] = bytes((first, *(chosen.randrange(256) for _ in range(size - 1))))
            at += size
        begun.append(at)
    image[at] = 0xA0
    return at + 1


def large(seed=1):
    """A listing of 65,536 bytes: stretches of code with targets and arrivals, of data, and of zeros left out."""
    chosen = random.Random(seed)
    lines, at = [], 0
    while at < 65536 - 64:
        kind = chosen.random()
        if kind < .04:
            at += chosen.randrange(1, 64)
        elif kind < .15:
            size = chosen.randrange(1, 17)
            lines.append(f"D\t{at:04X}\t" + "".join(f"{chosen.randrange(1, 256):02X}" for _ in range(size)))
            at += size
        else:
            at = some_code(lines, at, chosen)
    return "".join(line + "\n" for line in lines)


def some_code(lines, at, chosen):
    for _ in range(chosen.randrange(1, 12)):
        if chosen.random() < .2:
            lines.append(f"L\t{at:04X}")
            lines.append(f"A\t{at:04X}" + "".join(f"\t{chosen.randrange(65536):04X}" for _ in range(chosen.randrange(1, 5))))
        kind = chosen.randrange(4)
        to = chosen.randrange(65536)
        if kind == 0:
            lines.append(f"I\t{at:04X}\t20{to:04X}\tcallf\t{to:04X}")
        elif kind == 1:
            lines.append(f"I\t{at:04X}\t8002\tbz\t{at + 4:04X}")
        else:
            lines.append(f"I\t{at:04X}\t64\tinc\t@R0")
        at += (3, 2, 1, 1)[kind]
    return at


def longest():
    """65,536 instructions of one byte, each with a target mark and arrivals: 196,608 lines."""
    return "".join(f"L\t{p:04X}\nA\t{p:04X}\t{p ^ 1:04X}\t{p ^ 2:04X}\nI\t{p:04X}\t64\tinc\t@R0\n" for p in range(65536))


def counted(length, listing):
    """What a listing says, counted without the page."""
    covers, listed, named, steps = [0] * length, [0] * length, set(), 0
    for line in listing.splitlines():
        fields = line.split("\t")
        position = int(fields[1], 16)
        if fields[0] == "L" and position < length:
            named.add(position)
        if fields[0] in "ID":
            steps += fields[0] == "I"
            for p in range(position, position + len(fields[2]) // 2):
                (covers if fields[0] == "I" else listed)[p] += 1
    code = sum(c > 0 for c in covers)
    zero = sum(c == 0 and not d for c, d in zip(covers, listed))
    return {
        "length": length, "steps": steps, "code": code, "data": length - code, "both": sum(c > 1 for c in covers), "zero": zero,
        "named": len(named),
    }
