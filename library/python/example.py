"""A sheet of two programs on two processors, from its bytes to a run of slots: example.py LIBRARY."""
import sys

from giachimu import Bound, Giachimu, NoBound, Refused

DATA = b"GSH\x01\x02\x02\x04roll\x02\x02\x02\x01\x04trim\x01\x04\x04\x02"
RELEASES = [1, 2, 0, 0, 1, 0, 0, 0, 1, 2, 0, 1]


def shown(result):
    if isinstance(result, Bound):
        return f"bound {result.slots}"
    return "none 0" if isinstance(result, NoBound) else "unreached 0"


def show_bytes(what, data):
    print(f"a {what} of {len(data)} bytes: {data.hex(' ')}")


giachimu = Giachimu(sys.argv[1])
print(giachimu.verdict(DATA), end="")
print("green:", int(giachimu.green(DATA)))
print(giachimu.verdict(DATA[:-1]), end="")
sheet = giachimu.read(DATA)
for row, result in enumerate(giachimu.bounds(sheet)):
    print(f"{giachimu.label(DATA, row)}: {shown(result)}")
state = giachimu.fresh(sheet)
ran = giachimu.run(sheet, state, RELEASES)
print(f"{len(ran.codes)} slots done, {ran.refusal}")
for slot, codes in enumerate(ran.codes):
    print(f"slot {slot}: {codes[0].value} {codes[1].value}")
margin = giachimu.margin(sheet, state, 1)
if margin is not None:
    print(f"trim has a margin of {margin}")
try:
    giachimu.margin(sheet, state, 2)
except Refused as refused:
    print(f"row 2: refusal {refused.number}")
codes = giachimu.slot(sheet, state, [0, 0])
print(f"one slot more: {codes[0].value} {codes[1].value}")
value, after = giachimu.number(DATA, 4)
print(f"the number at 4 is {value}, and the next is at {after}")
try:
    giachimu.number_up_to(DATA, 4, 1)
except Refused as refused:
    print(f"a most of 1: {refused}")
print(f"legal: {int(giachimu.legal(sheet))}, sheet D: {int(giachimu.fixed(3) == sheet)}")
ran, _ = giachimu.boxed(sheet, RELEASES)
print(f"the box: {len(ran.codes)} slots done, {ran.refusal}")
scenario = giachimu.write_scenario(sheet, [1, 2, 0, 0, 1, 0])
show_bytes("scenario", scenario)
slots = giachimu.read_scenario(sheet, scenario)
print(f"{len(slots)} slots:", *(release for slot in slots for release in slot))
try:
    giachimu.read_scenario(sheet, scenario[:8] + b"\x07" + scenario[9:])
except Refused as refused:
    print(f"a slot count of 7: {refused}")
sheet, labels = giachimu.read_labelled(DATA)
sheet.rows[1] = sheet.rows[1]._replace(separation=200)
corrected = giachimu.write(sheet, labels)
show_bytes("sheet", corrected)
sheet, labels = giachimu.read_labelled(corrected)
print("written as it was read, the very bytes:", int(giachimu.write(sheet, labels) == corrected))
labels[1] = b"heel"
print(giachimu.verdict(giachimu.write(sheet, labels)), end="")
labels[1] = b" eel"
try:
    giachimu.write(sheet, labels)
except Refused as refused:
    print(f"a label with a blank: {refused}")
