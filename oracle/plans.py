#!/usr/bin/env python3
"""An independent model of the plan checker's report, written from docs/RULES.md, held beside the
program.

    oracle/plans.py PROGRAM [PLANS]     PLANS random plans (5,000), each at a cut too, and one plan
                                        at every cut

Prints each plan that differs, and last how many were compared and how many differ; its status is 0
if none does.
"""
import os
import random
import struct
import subprocess
import sys
import tempfile

from protocol import framed

CAUSES = {
    1: "fewer than four bytes left",
    2: "payload cut short",
    3: "another kind of record",
    4: "payload not of eight bytes",
    5: "end not after start, or after midnight",
}


def read(data):
    """Blocks (bus, bay, start, end) and faults (place, cause), each in order."""
    blocks, faults, at = [], [], 0
    while at < len(data):
        if len(data) - at < 4:
            faults.append((at, 1))
            break
        size, kind = struct.unpack_from("<HH", data, at)
        payload = data[at + 4 : at + 4 + size]
        if len(payload) < size:
            faults.append((at, 2))
            break
        if kind != 0x10:
            faults.append((at, 3))
        elif size != 8:
            faults.append((at, 4))
        else:
            block = struct.unpack("<HHHH", payload)
            if block[2] < block[3] <= 1440:
                blocks.append(block)
            else:
                faults.append((at, 5))
        at += 4 + size
    return blocks, faults


def clock(minute):
    return "%02d:%02d" % divmod(minute, 60)


def stay(block):
    return "bus %5d  %s-%s" % (block[0], clock(block[2]), clock(block[3]))


def neighbours(blocks):
    """Their lines, and how many overlaps, bays out of order, long gaps and pairs there are."""
    lines = []
    overlaps = descents = gaps = pairs = 0
    for k, block in enumerate(blocks):
        if k > 0 and blocks[k - 1][1] > block[1]:
            descents += 1
            places = (blocks[k - 1][1], block[1])
            lines.append("  bay %5d  is followed by bay %d: out of order" % places)
        earlier = [other for other in blocks[:k] if other[1] == block[1]]
        if not earlier:
            continue
        pairs += 1
        first, until = earlier[-1], max(other[3] for other in earlier)
        line = "  bay %5d  %s  then %s" % (block[1], stay(first), stay(block))
        if block[2] < until:
            overlaps += 1
            line += "  starts %d min too early" % (until - block[2])
        else:
            gaps += block[2] - until >= 10
            line += "  %4d min unassigned" % (block[2] - until)
        if until != first[3]:
            line += " (bay taken until %s)" % clock(until)
        lines.append(line)
    return lines, overlaps, descents, gaps, pairs


def report(name, data):
    """The text and the exit status."""
    blocks, faults = read(data)
    lines = ["plan: %s, %d bytes" % (name, len(data))]
    lines.append("blocks: %d" % len(blocks) if blocks else "no blocks")
    lines += ["  bay %5d  %s" % (block[1], stay(block)) for block in blocks]
    lines.append("faulty records: %d" % len(faults))
    lines += ["  byte %7d  cause %d: %s" % (place, cause, CAUSES[cause]) for place, cause in faults]
    lines.append("neighbours")
    laid, overlaps, descents, gaps, pairs = neighbours(blocks)
    lines += laid
    lines.append("pairs: %d" % pairs)
    bays = {block[1] for block in blocks}
    assert pairs == sum(len([b for b in blocks if b[1] == bay]) - 1 for bay in bays)
    found = [
        ("faulty records", len(faults)),
        ("overlaps", overlaps),
        ("bays out of order", descents),
        ("gaps of ten minutes or more", gaps),
    ]
    reasons = ["%s %d" % (reason, count) for reason, count in found if count]
    lines.append("plan failed: " + ", ".join(reasons) if reasons else "plan passed")
    return "".join(line + "\n" for line in lines), 1 if reasons else 0


def block_record(rng, bay, start, end):
    bus = rng.choice([rng.randrange(65536), rng.randrange(20)])
    return framed(0x10, struct.pack("<HHHH", bus, bay, start, end))


def random_bytes(rng, count):
    return bytes(rng.randrange(256) for _ in range(count))


def plan(rng):
    """A random plan; some are sound, some have one flaw, some are wild."""
    style, data = rng.randrange(4), b""
    if style < 2:
        for bay in sorted(rng.sample(range(1, 12), rng.randrange(0, 5))):
            at = rng.randrange(0, 600)
            for _ in range(rng.randrange(1, 6)):
                end = at + rng.randrange(1, 200)
                if end > 1440:
                    break
                data += block_record(rng, bay, at, end)
                at = end + rng.randrange(0, 10) + (rng.choice([0, 0, 0, 1, -3, 60]) if style else 0)
                at = max(0, at)
        return data
    for _ in range(rng.randrange(0, 14)):
        what = rng.randrange(12)
        if what < 9:
            start = rng.randrange(0, 1440)
            bay = rng.choice([1, 2, 3, 65535])
            data += block_record(rng, bay, start, min(1441, start + rng.randrange(0, 90)))
        elif what == 9:
            kind = rng.choice([0x11, 0, 0x1000])
            data += framed(kind, random_bytes(rng, rng.randrange(0, 9)))
        elif what == 10:
            data += framed(0x10, random_bytes(rng, rng.choice([0, 7, 9, 16])))
        else:
            data += random_bytes(rng, rng.randrange(0, 6))
    return data


def play(program, folder, name, data):
    with open(os.path.join(folder, name), "wb") as file:
        file.write(data)
    done = subprocess.run([program, name], cwd=folder, capture_output=True)
    return done.stdout, done.returncode


def cuts(rng):
    """One plan at every cut."""
    blocks = (block_record(rng, bay, 60 * bay, 60 * bay + 70) for bay in (1, 1, 2, 1))
    whole = b"".join(blocks) + framed(0x11, b"abc")
    return [whole[:cut] for cut in range(len(whole) + 1)]


def main():
    program, count = os.path.abspath(sys.argv[1]), int(sys.argv[2]) if len(sys.argv) > 2 else 5000
    rng, plans, differ = random.Random(2026), [], 0
    while len(plans) < count:
        data = plan(rng)
        plans.append(data)
        if data and rng.randrange(3) == 0:
            plans.append(data[: rng.randrange(len(data))])
    plans += cuts(rng)
    with tempfile.TemporaryDirectory() as folder:
        for data in plans:
            text, status = report("my.plan", data)
            answer = play(program, folder, "my.plan", data)
            if answer != (text.encode(), status):
                differ += 1
                print("differs:", data.hex(), answer[1], status)
    print("%d compared, %d differ" % (len(plans), differ))
    return 1 if differ else 0


if __name__ == "__main__":
    sys.exit(main())
