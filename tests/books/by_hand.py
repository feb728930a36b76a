"""Books and listings written by hand, byte by byte: what the reader of this checker has to say itself."""
from families import PAPER

HEAD = "51 4E 01 "
NO_STRINGS = "00000000 00000000 "
ROW = "00000000 00000000 "


def circuit(width, body):
    """A book of one circuit; the length is counted from the hex text, the start is 12."""
    return HEAD + f"01 01 {width:02x} {len(bytes.fromhex(body)):02x}00 0C000000" + body


def second(width, body):
    """The same in edition 2."""
    return circuit(width, body).replace("51 4E 01", "51 4E 02")


def table(width, body):
    return HEAD + f"01 02 {width:02x} {len(bytes.fromhex(body)):02x}00 0C000000" + body


FRAMES = [
    ("", "refused 9"),
    ("51", "refused 9"),
    ("51 4E 01", "refused 9"),
    ("51 4E 01 00", "book 0"),
    ("51 4E 01 00 00", "refused 10"),
    ("4E 51 01 00", "refused 9"),
    ("51 4E 00 00", "refused 9"),
    ("51 4E 02 00", "book 0"),
    ("51 4E 02 00 00", "refused 10"),
    ("51 4E 03 00", "refused 9"),
    ("51 4E FF 00", "refused 9"),
    ("51 4E 02 11", "refused 9"),
    ("51 4E 01 11", "refused 9"),  # 17 bodies, before contents too short
    ("51 4E 01 01", "refused 10"),
    ("51 4E 01 01 01 01 08 00 0C 00 00", "refused 10"),
    ("51 4E 01 01 01 01 08 00 0C 00 00 00", "refused 10"),  # no body
    ("51 4E 01 01 01 01 00 00 0C 00 00 00", "book 1/0 refused 11"),  # a body of length 0 is there
    ("51 4E 01 01 02 00 00 00 0C 00 00 00", "book 1/0 refused 11"),
    ("51 4E 01 01 00 01 00 00 0C 00 00 00", "refused 10"),  # kind 0
    ("51 4E 01 01 03 01 00 00 0C 00 00 00", "refused 10"),  # kind 3
    ("51 4E 01 01 02 00 05 00 0C 00 00 00 00 00 00 00 00", "book 1/0 T 0 0 0 0"),
    ("51 4E 01 01 02 00 05 00 0B 00 00 00 00 00 00 00 00", "refused 10"),
    ("51 4E 01 01 02 00 05 00 0D 00 00 00 00 00 00 00 00", "refused 10"),
    ("51 4E 01 01 02 00 05 00 0C 00 01 00 00 00 00 00 00", "refused 10"),
    ("51 4E 01 01 02 00 05 00 0C 00 00 00 00 00 00 00 00 00", "refused 10"),
    # two bodies: in place; the second starting early, and late with a byte between
    ("51 4E 01 02 02 00 05 00 14 00 00 00 02 00 05 00 19 00 00 00 00 00 00 00 00 01 00 00 00 00", "book 2/0 T 0 0 0 0/1 T 0 zero"),
    ("51 4E 01 02 02 00 05 00 14 00 00 00 02 00 05 00 18 00 00 00 00 00 00 00 00 00 00 00 00", "refused 10"),
    ("51 4E 01 02 02 00 05 00 14 00 00 00 02 00 05 00 1A 00 00 00 00 00 00 00 00 00 01 00 00 00 00", "refused 10"),
    # the first body has a zero mark of 2, the second entry a bad kind
    ("51 4E 01 02 02 00 05 00 14 00 00 00 09 00 05 00 19 00 00 00 02 00 00 00 00 01 00 00 00 00", "refused 10"),
    # the first body is not normal (12), the second has a phase of 8 (11)
    ("51 4E 01 02 02 00 05 00 14 00 00 00 02 00 05 00 19 00 00 00 01 01 00 00 00 00 08 00 00 00", "book 2/0 refused 12/1 refused 11"),
]

CIRCUITS = [
    (circuit(1, NO_STRINGS), "book 1/0 C 0 0"),
    (circuit(1, "00000000 01000000"), "book 1/0 C zero"),
    (circuit(1, "00000000 01000000 010000"), "book 1/0 C -1 0"),  # H
    (circuit(1, "00000000 01000000 010000 010000"), "book 1/0 C zero"),
    (circuit(1, NO_STRINGS + "010000 020000 010000"), "book 1/0 C -1 1"),  # H, S, H
    (circuit(1, NO_STRINGS + "070000"), "book 1/0 C -1 1"),  # SX
    (circuit(1, NO_STRINGS + "010000 020000 010000 020000 010000 020000"), "book 1/0 C 0 1"),
    (circuit(1, "00000000 01000000 060000"), "book 1/0 C 0 2"),  # Y
    (circuit(1, "01000000 00000000 060000"), "book 1/0 C 0 6"),
    (circuit(1, "01000000 01000000 030000"), "book 1/0 C 0 6"),  # S†
    (circuit(1, "01000000 01000000 040000"), "book 1/0 C 0 4"),  # Z
    (circuit(2, "00000000 03000000 010000 110001"), "book 1/0 C -1 0"),  # H on 0, CX 0 1
    (circuit(2, "00000000 01000000 010000 110001"), "book 1/0 C zero"),
    (circuit(2, "02000000 01000000 120001"), "book 1/0 C 0 0"),  # SWAP
    (circuit(2, "01000000 03000000 110001"), "book 1/0 C 0 0"),  # CX, the first wire controls
    (circuit(2, "02000000 03000000 110001"), "book 1/0 C zero"),
    (circuit(2, "03000000 03000000 100001"), "book 1/0 C 0 4"),  # CZ
    (circuit(0, NO_STRINGS), "book 1/0 refused 6"),
    (circuit(32, NO_STRINGS), "book 1/0 refused 6"),
    (circuit(255, NO_STRINGS), "book 1/0 refused 6"),
    (circuit(31, "00000040 00000040"), "book 1/0 C 0 0"),
    (circuit(31, "00000080 00000000"), "book 1/0 refused 8"),
    (circuit(1, "00000000 02000000"), "book 1/0 refused 8"),
    (circuit(0, "01000000 00000000"), "book 1/0 refused 6"),  # 6 before 8
    (circuit(1, NO_STRINGS + "000000"), "book 1/0 refused 7"),
    (circuit(1, NO_STRINGS + "080000"), "book 1/0 refused 7"),
    (circuit(1, NO_STRINGS + "130000"), "book 1/0 refused 7"),
    (circuit(1, NO_STRINGS + "FF0909"), "book 1/0 refused 7"),  # 7 before 6
    (circuit(1, NO_STRINGS + "010100"), "book 1/0 refused 6"),
    (circuit(1, NO_STRINGS + "010101"), "book 1/0 refused 6"),  # 6 before 3
    (circuit(1, NO_STRINGS + "010001"), "book 1/0 refused 3"),
    (circuit(2, NO_STRINGS + "110101"), "book 1/0 refused 2"),
    (circuit(2, NO_STRINGS + "110202"), "book 1/0 refused 6"),  # 6 before 2
    (circuit(2, NO_STRINGS + "100002"), "book 1/0 refused 6"),
    (circuit(2, NO_STRINGS + "110101 FF0000"), "book 1/0 refused 2"),  # gates in order
    (circuit(2, NO_STRINGS + "FF0000 110101"), "book 1/0 refused 7"),
    (circuit(1, "02000000 00000000 FF0000"), "book 1/0 refused 8"),  # 8 before gates
    (circuit(0, NO_STRINGS + "01"), "book 1/0 refused 11"),  # 11 before 6
    (circuit(1, NO_STRINGS + "0100"), "book 1/0 refused 11"),
    (circuit(1, "00000000 000000"), "book 1/0 refused 11"),
]

# "one line per body, `1 refused 7` in place of the answer, and the rest goes on": H; code 8; a turn of 4; a lead with a turn; a width
# of 40; one bit with turn 1
NIGHT = [
    ("51 4E 01 06 01 01 0B 00 34 00 00 00 01 01 0B 00 3F 00 00 00 02 01 0E 00 4A 00 00 00 02 01 17 00 58 00 00 00 01 28 08 00 6F 00 00 00"
     "02 01 0E 00 77 00 00 00 00000000 01000000 010000 00000000 01000000 080000 00 00 0000 04 " + ROW + "00"
     "00 00 0000 02" + ROW + "01 01000000 00000000 00" + NO_STRINGS + "00 00 0000 01" + ROW + "00",
     "book 6/0 C -1 0/1 refused 7/2 refused 11/3 refused 12/4 refused 6/5 T 1 0 0 0"),
]

# "SX 0→0 is (−1,1) in edition 1 and (−1,0) in edition 2": two bodies, from 0 to 0 and to 1
ROTATIONS = "02 01 01 0B 00 14 00 00 00 01 01 0B 00 1F 00 00 00 00000000 00000000 070000 00000000 01000000 070000"
EDITIONS = [
    ("51 4E 01 " + ROTATIONS, "book 2/0 C -1 1/1 C -1 7"),
    ("51 4E 02 " + ROTATIONS, "book 2/0 C -1 0/1 C -1 6"),
    ("51 4E 00 " + ROTATIONS, "refused 9"),
    ("51 4E 03 " + ROTATIONS, "refused 9"),
]

# repeated blocks of edition 2, code 64 (40) and code 65 (41)
BLOCKS = [
    (second(1, NO_STRINGS + "400300 010000 020000 410000"), "book 1/0 C 0 1"),  # H, S three times
    (second(1, "00000000 01000000 40FF00 050000 410000"), "book 1/0 C 0 0"),  # X 255 times
    (second(1, NO_STRINGS + "40FF00 050000 410000"), "book 1/0 C zero"),
    # twice (S, three times X): one of the two S meets a 1
    (second(1, NO_STRINGS + "400200 020000 400300 050000 410000 410000"), "book 1/0 C 0 2"),
    (second(1, "01000000 01000000 400200 020000 400300 050000 410000 410000"), "book 1/0 C 0 2"),
    (second(1, "00000000 01000000" + "400100" * 8 + "050000" + "410000" * 8), "book 1/0 C 0 0"),
    (second(1, "00000000 01000000" + "400100" * 9 + "050000" + "410000" * 9), "book 1/0 refused 16"),
    (second(1, NO_STRINGS + "400300 410000"), "book 1/0 refused 16"),  # empty
    (second(1, NO_STRINGS + "400300 010000"), "book 1/0 refused 16"),  # unclosed
    (second(1, NO_STRINGS + "410000"), "book 1/0 refused 16"),  # unopened
    (second(1, NO_STRINGS + "010000 410000 400100"), "book 1/0 refused 16"),
    (second(1, NO_STRINGS + "410000 090000"), "book 1/0 refused 7"),  # 7 before 16
    (second(1, NO_STRINGS + "400300 010100"), "book 1/0 refused 6"),
    (second(1, NO_STRINGS + "410000 010001"), "book 1/0 refused 3"),
    (second(1, NO_STRINGS + "400000 010000 410000"), "book 1/0 refused 3"),  # a count of 0
    (second(1, NO_STRINGS + "400300 010000 410100"), "book 1/0 refused 3"),
    (second(1, NO_STRINGS + "400301 010000 410000"), "book 1/0 refused 3"),
    (second(1, NO_STRINGS + "400300 010000 410001"), "book 1/0 refused 3"),
    (second(1, "02000000 00000000 410000"), "book 1/0 refused 8"),
    (circuit(1, NO_STRINGS + "400300 010000 020000 410000"), "book 1/0 refused 7"),  # edition 1
    (circuit(1, NO_STRINGS + "400000"), "book 1/0 refused 7"),
    (second(1, NO_STRINGS + "40FF00 050000 40FE00 050000 410000 410000" + "40FF00 050000 410000" * 2 + "050000"), "book 1/0 C 0 0"),
    (second(1, NO_STRINGS + "40FF00 050000 40FE00 050000 410000 410000" + "40FF00 050000 410000" * 2 + "050000" * 2), "book 1/0 refused 16"),
]

# elements by their words: HSH, HSSH, HSSHSS, nothing; order 7, 6, 3; one gate each in a block
WORDS = [
    (second(1, NO_STRINGS + "260000"), "book 1/0 C -1 1"),
    (second(1, "00000000 01000000 2C0000"), "book 1/0 C 0 0"),
    (second(1, "00000000 01000000 370000"), "book 1/0 C 0 4"),
    (second(1, NO_STRINGS + "200000"), "book 1/0 C 0 0"),
    (second(1, "00000000 01000000 200000"), "book 1/0 C zero"),
    (second(1, "01000000 01000000 220000"), "book 1/0 C 0 2"),  # S
    (second(1, "01000000 01000000 210000"), "book 1/0 C -1 4"),  # H
    (second(2, "00000000 02000000 2C0100"), "book 1/0 C 0 0"),  # HSSH on wire 1
    (second(1, NO_STRINGS + "1F0000"), "book 1/0 refused 7"),
    (second(1, NO_STRINGS + "380000"), "book 1/0 refused 7"),
    (second(1, NO_STRINGS + "200100"), "book 1/0 refused 6"),
    (second(1, NO_STRINGS + "370101"), "book 1/0 refused 6"),  # 6 before 3
    (second(1, NO_STRINGS + "200001"), "book 1/0 refused 3"),
    (circuit(1, NO_STRINGS + "200000"), "book 1/0 refused 7"),  # edition 1
    (circuit(1, NO_STRINGS + "370101"), "book 1/0 refused 7"),
    (second(1, NO_STRINGS + "400300 200000 410000"), "book 1/0 C 0 0"),  # a block with code 32 is not empty
    (second(1, NO_STRINGS + "400200 210000 410000"), "book 1/0 C 0 0"),
]

# document 02's records: two wires H and CX, both 1; one of each; no gates; 255 times (H, 0)
RECORDS = [
    ("51 4E 02 04 03 02 10 00 24 00 00 00 03 02 10 00 34 00 00 00 03 01 04 00 44 00 00 00 03 01 10 00 48 00 00 00"
     "00000000 010000 110001 500001 500101 00000000 010000 110001 500001 500100 00000000 00000000 40FF00 010000 500000 410000",
     "book 4/0 R 1/1 R none/2 R 0/3 R 255"),
    ("51 4E 02 01 03 01 07 00 0C 00 00 00 00000000 500001", "book 1/0 R none"),  # 1 without H
    ("51 4E 02 01 03 01 07 00 0C 00 00 00 01000000 500001", "book 1/0 R 0"),
    ("51 4E 02 01 03 01 0D 00 0C 00 00 00 00000000 010000 500000 500000", "book 1/0 R 1"),  # measured twice alike
    ("51 4E 02 01 03 02 10 00 0C 00 00 00 00000000 010000 010100 500000 500101", "book 1/0 R 2"),
    ("51 4E 02 01 03 01 07 00 0C 00 00 00 00000000 500002", "book 1/0 refused 3"),
    ("51 4E 02 01 03 01 07 00 0C 00 00 00 00000000 500102", "book 1/0 refused 6"),  # 6 before 3
    ("51 4E 02 01 03 01 03 00 0C 00 00 00 000000", "book 1/0 refused 11"),
    ("51 4E 01 01 03 01 04 00 0C 00 00 00 00000000", "refused 10"),  # edition 1
]

TABLES = [
    (table(0, "01 00 0000 00"), "book 1/0 T 0 zero"),
    (table(0, "00 07 D007 00"), "book 1/0 T 0 0 2000 7"),
    (table(0, "00 00 30F8 00"), "book 1/0 T 0 0 -2000 0"),
    (table(0, "00 00 D107 00"), "book 1/0 refused 11"),
    (table(0, "00 00 2FF8 00"), "book 1/0 refused 11"),
    (table(0, "00 08 0000 00"), "book 1/0 refused 11"),
    (table(0, "02 00 0000 00"), "book 1/0 refused 11"),
    (table(0, "00 00 0000 01" + ROW + "00"), "book 1/0 refused 11"),  # more ties than slots
    (table(0, "01 00 0100 00"), "book 1/0 refused 12"),  # zero with a power
    (table(0, "01 01 0000 00"), "book 1/0 refused 12"),  # zero with a phase
    (table(0, "01 08 0100 00"), "book 1/0 refused 11"),  # 11 before 12
    (table(1, "00 03 FFFF 00" + ROW + "01 01000000 00000000 01"), "book 1/0 T 1 1 -1 3"),
    (table(1, "00 00 0000 03" + ROW + "00"), "book 1/0 T 1 0 0 0"),
    (table(1, "00 00 0000 04" + ROW + "00"), "book 1/0 refused 11"),
    (table(1, "00 00 0000 00 02000000 00000000 00"), "book 1/0 refused 11"),  # a row bit at n
    (table(1, "00 00 0000 00 01000000 00000000 00"), "book 1/0 refused 12"),  # a sign of slot 0 with itself
    (table(1, "00 00 0000 00" + ROW + "01 02000000 00000000 00"), "book 1/0 refused 11"),  # a mask bit at n
    (table(1, "00 00 0000 00" + ROW + "01 01000000 00000000 02"), "book 1/0 refused 11"),
    (table(1, "00 00 0000 00" + ROW + "01 00000000 00000000 00"), "book 1/0 refused 12"),  # an empty tie
    (table(1, "00 00 0000 02" + ROW + "01 01000000 00000000 00"), "book 1/0 refused 12"),  # the turn of a lead
    (table(1, "01 00 0000 00" + ROW + "00"), "book 1/0 T 1 zero"),
    (table(1, "01 00 0000 01" + ROW + "00"), "book 1/0 refused 12"),
    (table(1, "01 00 0000 00" + ROW + "01 01000000 00000000 00"), "book 1/0 refused 12"),
    (table(1, "00 00 0000 00" + ROW), "book 1/0 refused 11"),  # a byte is missing
    (table(1, "00 00 0000 00" + ROW + "00 00"), "book 1/0 refused 11"),
    # "Tie {0,1}=1, then quarter 1 on slot 0: c=2, a_1=3, a_0=0."
    (table(2, "00 02 0000 00 03" + ROW + ROW + "01 03000000 00000000 01"), "book 1/0 T 2 1 0 2"),
    # the same before it is reduced: the turn stands on the lead
    (table(2, "00 00 0000 01 00" + ROW + ROW + "01 03000000 00000000 01"), "book 1/0 refused 12"),
    (table(2, "00 00 0000 00 00 02000000 00000000 01000000 00000000 00"), "book 1/0 T 2 0 0 0"),
    (table(2, "00 00 0000 00 00 02000000 00000000 00000000 00000000 00"), "book 1/0 refused 12"),  # not symmetric
    (table(2, "00 00 0000 00 00 02000000 00000000 01000000 00000000 01 01000000 00000000 00"), "book 1/0 refused 12"),  # a lead's row
    (table(2, "00 00 0000 00 00" + ROW + ROW + "02 01000000 00000000 00 02000000 00000000 01"), "book 1/0 T 2 2 0 0"),
    (table(2, "00 00 0000 00 00" + ROW + ROW + "02 02000000 00000000 01 01000000 00000000 00"), "book 1/0 refused 12"),  # order of leads
    (table(2, "00 00 0000 00 00" + ROW + ROW + "02 03000000 00000000 01 02000000 00000000 00"), "book 1/0 refused 12"),  # a lead elsewhere
    (table(2, "01 00 0000 00 00 02000000 00000000 01000000 00000000 00"), "book 1/0 refused 12"),  # zero with a sign
    (table(65, "00 00 0000 00"), "book 1/0 refused 11"),
]


def cases():
    """(book, listing); the listings above have / for a newline and leave out the last one."""
    yield PAPER, "book 2\n0 C -1 0\n1 C -1 1\n"
    for text, said in FRAMES + CIRCUITS + NIGHT + EDITIONS + RECORDS + BLOCKS + WORDS + TABLES:
        yield bytes.fromhex(text), said.replace("/", "\n") + "\n"
