# The log and the records that the program `air` is run on, and what it prints, worked out apart from the product:
#   python3 crates/air/expected.py log | cmp - crates/air/data/evening.log
#   python3 crates/air/expected.py record | cmp - crates/air/data/record.txt
#   python3 crates/air/expected.py told | cmp - crates/air/stdout
# and with `lost` and `told_lost` for checks/cases/air/lost. `script` is for the console, whose answers are those of the record, line by line:
#   python3 crates/air/expected.py script | crates/console/out/console | python3 crates/air/expected.py answers
import sys

POOL, TITLE = 8, 3
OPENED, TICK, LENGTH = 6_000_000, 60_000, 56 * 60_000
FLOOR, CAP = 3, 6
CELLS, TICKS, LANES = 2**CAP, 130, 12
# at which tick of the title what happens: a count that rules from then on, or a hold, a lift, the close
EVENTS = [(0, 4), (16, 6), (33, "hold"), (40, "lift"), (48, 3), (56, 5), (72, "close")]

KIND = {"open": 1, "change": 2, "close": 3, "hold": 4, "lift": 5}
SIZES = {1: 1, 2: 4, 3: 1, 4: 8, 5: 4, 6: 1, 7: 1, 8: 1}
TAGS = {1: [1, 2, 3, 4, 5, 6, 7, 8], 2: [1, 2, 3, 4, 8], 3: [1, 2, 3, 4], 4: [1, 2, 3, 4], 5: [1, 2, 3, 4]}


def notice(sequence, kind, title, time, length=0, floor=0, cap=0, count=0):
    values = {1: KIND[kind], 2: sequence, 3: title, 4: time, 5: length, 6: floor, 7: cap, 8: count}
    fields = [(tag, SIZES[tag], values[tag]) for tag in TAGS[KIND[kind]]]
    return b"".join(bytes([tag]) + size.to_bytes(2, "big") + value.to_bytes(size, "big") for tag, size, value in fields)


def steps():
    """The title's events as the log has them: what, when, and a count."""
    for tick, what in EVENTS:
        word = what if isinstance(what, str) else "open" if tick == 0 else "change"
        yield word, OPENED + tick * TICK, 0 if isinstance(what, str) else what


def log():
    """An earlier opening of the title, another title, and the events; one change comes too soon and counts for nothing."""
    out = notice(1, "open", TITLE, 0, 12, 2, 4, 4) + notice(2, "close", TITLE, 8)
    out += notice(3, "open", 1, 1_000_000, 12_000_000, 2, 12, 2)
    for sequence, (word, time, count) in enumerate(steps(), 4):
        if word == "hold":
            out += notice(sequence, "change", TITLE, OPENED + 17 * TICK, count=5)
        opening = (LENGTH, FLOOR, CAP) if word == "open" else (0, 0, 0)
        out += notice(sequence, word, TITLE, time, *opening, count)
    return out


def channels(count, tick):
    """The cells on the channels of a count, in order."""
    slot, within = divmod(tick, 2 ** (CAP - count))
    shift = 2 ** (count - FLOOR) - 1
    segments = [2**d + (slot - shift) % 2**d for d in range(count)]
    return [(n - 1) * 2 ** (CAP - count) + within for n in segments]


def usual(lane, tick):
    if lane < FLOOR:
        return channels(FLOOR, tick)[lane]
    (cell,) = set(channels(lane + 1, tick)) - set(channels(lane, tick))
    return cell


def is_film(cell):
    return cell * TICK < LENGTH


def ruling(tick):
    """The count at a tick, 0 from the close on, and whether the doors are held."""
    count, held = 0, False
    for when, what in EVENTS:
        if when <= tick:
            count = 0 if what == "close" else count if isinstance(what, str) else what
            held = held if what not in ("hold", "lift") else what == "hold"
    return count, held


def admissions():
    for tick in range(TICKS):
        count, held = ruling(tick)
        if count and not held and tick % 2 ** (CAP - count) == 0:
            yield tick, count


def plan(start, count):
    """At which tick a box that starts under a count takes each cell."""
    taken = {}
    for d in range(count):
        for tick in range(start, start + 2 ** (CAP - count + d)):
            taken[channels(count, tick)[d]] = tick
    return taken


def owed(lane, dropped):
    plans = [plan(start, count) for start, count in admissions() if start < dropped]
    cells = [(usual(lane, tick), tick) for tick in range(dropped, dropped + CELLS)]
    return [cell for cell, tick in cells if is_film(cell) and any(p.get(cell) == tick for p in plans)]


def record():
    """What each lane shows at each tick, None for nothing."""
    rows, sending = [], {}
    for tick in range(TICKS):
        count, before = ruling(tick)[0], ruling(tick - 1)[0]
        for lane in range(LANES):
            if lane < count:
                sending[lane] = []
            elif lane < before:
                sending[lane] = owed(lane, tick)
        rows.append([usual(lane, tick) if lane < count else sending[lane].pop(0) if sending.get(lane) else None for lane in range(LANES)])
    return rows


def lost():
    """The same with cells lost: a lane for a while, all lanes for a tick, single cells of film, and padding that nobody misses."""
    rows = record()
    for tick, row in enumerate(rows):
        for lane, cell in enumerate(row):
            gone = (lane == 2 and 20 <= tick < 24) or tick == 50 or (lane == 3 and tick == 13) or (tick > 60 and cell == 41)
            if gone or (cell is not None and not is_film(cell)):
                row[lane] = None
    return rows


def told(rows):
    lines, played, outlast = [], 0, 0
    for start, count in admissions():
        if start + CELLS > TICKS:
            outlast += 1
            continue
        shown = [{cell for row in rows[start : start + c + 1] for cell in row} for c in range(CELLS)]
        missed = [c for c in range(CELLS) if is_film(c) and c not in shown[c]]
        played += not missed
        lines.append(f"{start} {missed[0] if missed else '-'}\n")
    return "".join(lines) + f"played through {played}\nstarved {len(lines) - played}\noutlast the record {outlast}\n"


def plain(rows):
    return "".join(" ".join("-" if cell is None else str(cell) for cell in row) + "\n" for row in rows)


def loose(rows):
    """The same text with all that does not count: blank lines, separators at a line's ends, carriage returns, no last newline."""
    out = "\n \t\n"
    for tick, row in enumerate(rows):
        words = [("65535" if tick % 3 else "-") if cell is None else str(cell).zfill(1 + tick % 4) for cell in row]
        out += " \t"[tick % 2] * (tick % 3) + "\t ".join(words) + [" ", "\r", ""][tick % 3] + "\n" * (1 + tick % 2)
    return out.rstrip("\n")


def script():
    """The lane questions of the record, each asked after its moment's events."""
    todo = [f"fresh {POOL}"]
    events = list(steps())
    for tick in range(TICKS):
        time = OPENED + tick * TICK
        while events and events[0][1] <= time:
            word, when, count = events.pop(0)
            numbers = {"open": f" {LENGTH} {FLOOR} {CAP} {count}", "change": f" {count}"}.get(word, "")
            todo.append(f"{word} {TITLE} {when}{numbers}")
        todo += [f"lane {TITLE} {lane} {time}" for lane in range(LANES)]
    return "\n".join(todo) + "\n"


def answers(lines):
    """Whether the console answered the script with the record."""
    asked = script().splitlines()
    got = [line.split() for line, question in zip(lines, asked) if question.startswith("lane")]
    cells = [int(words[1]) if words[0] == "0" else None for words in got]
    same = [cells[i : i + LANES] for i in range(0, len(cells), LANES)] == record()
    return "the same" if same and len(lines) == len(asked) else "not the same"


def main():
    what = sys.argv[1]
    if what == "log":
        sys.stdout.buffer.write(log())
    elif what == "answers":
        print(answers(sys.stdin.read().splitlines()))
    else:
        texts = {
            "record": lambda: plain(record()),
            "lost": lambda: loose(lost()),
            "told": lambda: told(record()),
            "told_lost": lambda: told(lost()),
            "script": script,
        }
        sys.stdout.write(texts[what]())


main()
