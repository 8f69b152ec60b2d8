"""Prints the entries of src/lib.rt, one to a line, worked out from 01's shifted grid for floor 3 and cap 10.

The proofs do not rest on it: they read the numbers that stand in src/lib.rt. checks/models compares the two.
"""

FLOOR, CAP = 3, 10


def cell(count, channel, tick):
    width = 2 ** (CAP - count)
    slot, rest = divmod(tick, width)
    shifted = slot - (2 ** (count - FLOOR) - 1)
    segment = 2**channel + shifted % 2**channel
    return (segment - 1) * width + rest


def on_air(count, tick):
    return {cell(count, channel, tick) for channel in range(count)}


def lane_cell(lane, tick):
    if lane < FLOOR:
        return cell(FLOOR, lane, tick)
    (added,) = on_air(lane + 1, tick) - on_air(lane, tick)
    return added


for lane in range(CAP):
    for tick in range(2 ** (CAP - 1)):
        print(f"    {lane_cell(lane, tick)},")
