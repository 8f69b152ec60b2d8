# The damaged log that the salvage is run on, and what is left of it, worked out apart from the product:
#   python3 crates/salvage/expected.py log | cmp - crates/salvage/stdin
#   python3 crates/salvage/expected.py taken | cmp - crates/salvage/stdout
#   python3 crates/salvage/expected.py told | cmp - crates/salvage/stderr
# With a file instead of `log` it works out that file's: python3 crates/salvage/expected.py taken FILE.
import sys

SIZES = {1: 1, 2: 4, 3: 1, 4: 8, 5: 4, 6: 1, 7: 1, 8: 1}
# open, change, close, hold, lift and the opening of a skip-forward title
KINDS = {
    1: [1, 2, 3, 4, 5, 6, 7, 8],
    2: [1, 2, 3, 4, 8],
    3: [1, 2, 3, 4],
    4: [1, 2, 3, 4],
    5: [1, 2, 3, 4],
    6: [1, 2, 3, 4, 5, 8],
}


def notice(kind, values):
    out = b""
    for tag in KINDS[kind]:
        size = SIZES[tag]
        out += bytes([tag]) + size.to_bytes(2, "big") + values[tag].to_bytes(size, "big")
    return out


def at(log, place):
    """The sequence and the end of the whole notice at a place, if one is there."""
    if place + 4 > len(log) or log[place + 3] not in KINDS:
        return None
    kind = log[place + 3]
    here, values = place, {}
    for tag in KINDS[kind]:
        size = SIZES[tag]
        if log[here : here + 3] != bytes([tag]) + size.to_bytes(2, "big") or here + 3 + size > len(log):
            return None
        values[tag] = int.from_bytes(log[here + 3 : here + 3 + size], "big")
        here += 3 + size
    return values[2], here


def salvage(log):
    """The taken notices one behind the other, and what is told: a stretch when it ends, with the gap that it left."""
    place, last, taken, told, count, stretch = 0, None, b"", "", 0, None
    while place < len(log):
        found = at(log, place)
        if found and (last is None or found[0] > last):
            sequence, end = found
            if stretch:
                told += "skipped %d %d\n" % tuple(stretch)
                if last is not None and sequence != last + 1:
                    told += f"sequence {sequence} follows {last}\n"
            stretch = None
            last = sequence
            taken += log[place:end]
            count += 1
            place = end
        else:
            if stretch is None:
                stretch = [place, 0]
            stretch[1] += 1
            place += 1
    if stretch:
        told += "skipped %d %d\n" % tuple(stretch)
    return taken, (told + f"taken {count} notices, {len(taken)} bytes\n").encode()


def damaged():
    """400 notices of all kinds over several blocks: bytes before the first, a flipped byte, a lost stretch, a repeated notice, a
    notice that is gone without a trace, a stretch over more than a block, and a cut end."""
    notices = []
    for s in range(1, 401):
        values = {2: s, 3: s % 16, 4: 1000 * s, 5: 60_000, 6: 2, 7: 4, 8: 2 + s % 3}
        kind = (1, 2, 4, 5, 2, 3, 6, 3)[(s - 1) % 8]
        values[1] = kind
        notices.append(notice(kind, values))
    out = b"\0" * 5  # no notice stands before this stretch
    for s, n in enumerate(notices, 1):
        if s == 7:
            n = n[:13] + bytes([n[13] ^ 64]) + n[14:]  # a flipped byte, in the title's length
        if s in (19, 20):
            n = b"\0" * len(n)  # a run of zeros
        if s == 33:
            n = n[20:]  # a lost stretch, over a notice's start
        if s == 34:
            n = n[:9]  # and over another's end
        if s == 60:
            n = n + n  # a repeated notice
        if s == 90:
            n = n + notices[80] + notices[81]  # old notices again, in the middle
        if s == 110:
            n = b""  # a gap that no stretch left
        if 120 <= s < 290:
            n = n + (b"\1" * (s % 4))  # a byte or more before most notices of four blocks
        if s == 300:
            n = b"\1" * 5000  # a stretch over more than a block
        if s == 350:
            n = n[:2] + n  # a start that breaks off
        out += n
    return out[:-11]  # a cut end


def main():
    what = sys.argv[1]
    log = open(sys.argv[2], "rb").read() if len(sys.argv) > 2 else damaged()
    taken, told = salvage(log)
    sys.stdout.buffer.write({"log": log, "taken": taken, "told": told}[what])


main()
