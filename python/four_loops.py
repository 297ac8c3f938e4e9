"""A visit of four loops with four raw counts each: the readings of each loop, and the same firmware where loop four was never loaded."""
import bodlarina

FIRMWARE = """msettypei x0, 8
msettileki x0, 4
msettileni x0, 2
msettilem x0, x12
mlae8.m tr0, (x10), x11
mlbe8.m tr1, (x14), x15
msettilem x0, x13
mqemulc.mi acc0, acc0, 0
mqma.mm acc0, tr0, tr1
msce32.m acc0, (x16), x17"""

for loaded in 4, 3:
    m = bodlarina.Machine(64, 256, memory=64, seals=[(0, 16)])                  # no store changes a count
    m.put(0, 8, [12, 40, 7, 0,  3, 99, 15, 2,  100, 1, 0, 64,  25, 30, 0, 8])   # loops one to four
    m.put(16, 8, [1, -1,  2, 0,  3, 5,  -4, 10])                                # what each count weighs in two readings
    m.x[10:18] = 0, 4, loaded, 4, 16, 2, 32, 8                                  # counts, loops loaded and asked for, weights, readings
    try:
        for line in FIRMWARE.splitlines():
            m.step(line)
        print("readings:", m.get(32, 32, 8))
    except bodlarina.Refused as refused:
        print(f"{refused}, a count of loop {refused.row + 1}")
