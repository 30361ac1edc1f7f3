#!/usr/bin/env python3
"""Makes the example files: python3 make_examples.py [FOLDER], the folder of this script if none is given.

The programs are written as 6502 machine code, an instruction to a line. An address is a reference to a label, and each format's list of
address fields is made from these references, so that code and list can't disagree.
"""

import os
import sys


class Label:
    """A name for the place where it stands."""

    def __init__(self, name):
        self.name = name


class Ref:
    """An address field: 'word' has two bytes, 'low', 'high' and 'zero' (a zero-page address) have one."""

    def __init__(self, form, name, plus=0):
        self.form, self.name, self.plus = form, name, plus

    def length(self):
        return 2 if self.form == "word" else 1

    def bytes(self, address):
        address = (address + self.plus) & 0xFFFF
        return {
            "word": [address & 0xFF, address >> 8],
            "low": [address & 0xFF],
            "high": [address >> 8],
            "zero": [address & 0xFF],
        }[self.form]


def word(name, plus=0):
    return Ref("word", name, plus)


def low(name, plus=0):
    return Ref("low", name, plus)


def high(name, plus=0):
    return Ref("high", name, plus)


def zero(name, plus=0):
    return Ref("zero", name, plus)


def little(number):
    return bytes([number & 0xFF, number >> 8])


def labels_of(items, origin):
    """The address of each label, and the length of the items."""
    at, labels = origin, {}
    for item in items:
        if isinstance(item, Label):
            labels[item.name] = at
        else:
            at += item.length() if isinstance(item, Ref) else 1
    return labels, at - origin


def assembled(items, labels):
    """The bytes, and the address fields as (index, reference)."""
    code, fields = [], []
    for item in items:
        if isinstance(item, Ref):
            fields.append((len(code), item))
            code += item.bytes(labels[item.name])
        elif not isinstance(item, Label):
            code.append(item)
    return bytes(code), fields


# ACX

MAIN, ABSOLUTE, ZERO_PAGE, END = 0x00, 0x01, 0x0A, 0x0B
START_ABSENT, START_ABSOLUTE, START_RELATIVE = 0, 1, 2
DISK_OPENING = b"\xF0\xFF"

# The type of the fixup record for a field, in code outside and inside the zero page. Absolute code takes those for outside.
FIXUPS = {
    MAIN: {"low": 0x02, "zero": 0x04, "word": 0x06, "high": 0x08},
    ZERO_PAGE: {"low": 0x03, "zero": 0x05, "word": 0x07, "high": 0x09},
}
FIXUPS[ABSOLUTE] = FIXUPS[MAIN]


def acx_fixups(kind, fields, labels):
    """The fixup records of a code record, in the order of their types."""
    records = b""
    for form, number in sorted(FIXUPS[kind].items(), key=lambda pair: pair[1]):
        items = b""
        for index, ref in fields:
            if ref.form == form:
                items += bytes([index])
                if form == "high":
                    # the low byte, which is not in the code beside it
                    items += bytes([(labels[ref.name] + ref.plus) & 0xFF])
        if items:
            records += bytes([number, len(items)]) + items
    return records


def acx_file(opening, pieces, start):
    """A handler: pieces of (kind, address, items), each of at most 253 bytes; it starts at a label."""
    labels = {}
    for _, address, items in pieces:
        labels.update(labels_of(items, address)[0])
    file = opening
    for kind, address, items in pieces:
        code, fields = assembled(items, labels)
        file += bytes([kind, 2 + len(code)]) + little(address) + code
        file += acx_fixups(kind, fields, labels)
    return file + bytes([END, START_RELATIVE]) + little(labels[start])


# The clock driver: device L: of the bench, for laps. Assembled for main base 0 and zero-page base 0.
#   lap    live lap counter, two bytes, at zero-page base + 0
#   score  live score, four decimal digits, at main base + 256
#   log    the jiffy of each of the last sixteen laps, at main base + 258

HATABS = 0x031A  # the system's table of handlers, three bytes each: letter, address
RTCLOK = 0x12  # the system's jiffy counter, three bytes, the quickest last

CLOCK_CODE = [
    # What the system calls, by address minus one: open, close, get, put, status, special.
    Label("table"), word("done", -1), word("done", -1), word("get", -1),
    word("put", -1), word("done", -1), word("special", -1),
    0x4C, word("init"),                          # JMP init
    # get: the number of laps, modulo 256
    Label("get"),
    0xA5, zero("lap"),                           # LDA lap
    Label("done"),
    0xA0, 0x01,                                  # LDY #1          success
    0x60,                                        # RTS
    # put: the points in A, two decimal digits, are added to the score
    Label("put"),
    0xF8,                                        # SED
    0x18,                                        # CLC
    0x6D, word("score"),                         # ADC score
    0x8D, word("score"),                         # STA score
    0xAD, word("score", 1),                      # LDA score+1
    0x69, 0x00,                                  # ADC #0
    0x8D, word("score", 1),                      # STA score+1
    0xD8,                                        # CLD
    0xA0, 0x01,                                  # LDY #1
    0x60,                                        # RTS
    # special: one more lap
    Label("special"),
    0x4C, zero("tick"), 0x00,                    # JMP tick        in the zero page
    # stamp: the jiffy of this lap into the log, whose address is in A and X
    Label("stamp"),
    0x85, zero("pointer"),                       # STA pointer
    0x86, zero("pointer", 1),                    # STX pointer+1
    0xA5, zero("lap"),                           # LDA lap
    0x29, 0x0F,                                  # AND #15
    0xA8,                                        # TAY
    0xA5, RTCLOK + 2,                            # LDA RTCLOK+2
    0x91, zero("pointer"),                       # STA (pointer),Y
    0xA0, 0x01,                                  # LDY #1
    0x60,                                        # RTS
    # init: enters L: in the first free place of the handler table; carry set if there is none
    Label("init"),
    0xA2, 0x00,                                  # LDX #0
    0xBD, HATABS & 0xFF, HATABS >> 8,            # LDA HATABS,X    find
    0xF0, 0x09,                                  # BEQ free
    0xE8,                                        # INX
    0xE8,                                        # INX
    0xE8,                                        # INX
    0xE0, 0x21,                                  # CPX #33         eleven entries
    0x90, 0xF4,                                  # BCC find
    0x38,                                        # SEC
    0x60,                                        # RTS
    0xA9, ord("L"),                              # LDA #'L'        free
    0x9D, HATABS & 0xFF, HATABS >> 8,            # STA HATABS,X
    0xA9, low("table"),                          # LDA #<table
    0x9D, HATABS + 1 & 0xFF, HATABS + 1 >> 8,    # STA HATABS+1,X
    0xA9, high("table"),                         # LDA #>table
    0x9D, HATABS + 2 & 0xFF, HATABS + 2 >> 8,    # STA HATABS+2,X
    0x18,                                        # CLC
    0x60,                                        # RTS
]

CLOCK_ZERO_PAGE = [
    Label("lap"), 0x00, 0x00,
    Label("pointer"), 0x00, 0x00,
    # tick: counts a lap and stamps it
    Label("tick"),
    0xE6, zero("lap"),                           # INC lap
    0xD0, 0x02,                                  # BNE *+4
    0xE6, zero("lap", 1),                        # INC lap+1
    0xA9, low("log"),                            # LDA #<log
    0xA2, high("log"),                           # LDX #>log
    0x4C, word("stamp"),                         # JMP stamp
]

CLOCK_DATA = [Label("score"), 0x00, 0x00, Label("log")] + [0x00] * 16

# The desk reads this title at a fixed place. 9B ends a line.
CLOCK_TITLE = list(b"LAP CLOCK 1\x9B")

CLOCK = [
    (MAIN, 0x0000, CLOCK_CODE),
    (ZERO_PAGE, 0x0000, CLOCK_ZERO_PAGE),
    (MAIN, 0x0100, CLOCK_DATA),
    (ABSOLUTE, 0x0600, CLOCK_TITLE),
]

# The start signal: the bottom of the screen is red before the start and green after it. It is drawn in the display list's interrupt, which goes
# through a vector of the system's in page 2. The vector is loaded with the code, points into it, and is turned while it lives.

VDSLST = 0x0200  # the system's vector for that interrupt
COLBK, NMIEN = 0xD01A, 0xD40E  # the color of the background; which of these interrupts come
RED, GREEN = 0x34, 0xC4


def background(color):
    return [
        0x48,                                    # PHA
        0xA9, color,                             # LDA #color
        0x8D, *little(COLBK),                    # STA COLBK
        0x68,                                    # PLA
        0x40,                                    # RTI
    ]


SIGNAL_CODE = [
    Label("red"), *background(RED),
    Label("green"), *background(GREEN),
    # go: from now on green. No interrupt comes while the vector is half turned
    Label("go"),
    0xA9, 0x40,                                  # LDA #$40
    0x8D, *little(NMIEN),                        # STA NMIEN
    0xA9, low("green"),                          # LDA #<green
    0x8D, *little(VDSLST),                       # STA VDSLST
    0xA9, high("green"),                         # LDA #>green
    0x8D, *little(VDSLST + 1),                   # STA VDSLST+1
    # init: the interrupts come
    Label("init"),
    0xA9, 0xC0,                                  # LDA #$C0
    0x8D, *little(NMIEN),                        # STA NMIEN
    0x60,                                        # RTS
]

SIGNAL = [
    (MAIN, 0x0000, SIGNAL_CODE),
    (ABSOLUTE, VDSLST, [word("red")]),
]

# The smallest handler: it jumps to the byte after itself (bench table P1).
JUMP = [
    (MAIN, 0x0000, [
        Label("jump"),
        0x4C, word("after"),                     # JMP after
        Label("after"),
    ]),
]

# The same with the word's index listed twice (bench table P10): one address would be adjusted twice.
TWICE = bytes.fromhex("00 05 00 00 4C 03 00  06 02 01 01  0B 02 00 00")


# SDX

PLAIN, NAMES, NEW_NAME, UPDATE, RELOCATABLE = 0xFFFA, 0xFFFB, 0xFFFC, 0xFFFD, 0xFFFE
RESERVE = 0x80
RUN_ADDRESS = 0x02E0
ITEM_END, ITEM_ADDRESS, ITEM_BLOCK, ITEM_SKIP = 0xFC, 0xFD, 0xFE, 0xFF
SKIP = 250


def update_body(block, indexes, addresses=()):
    """An update body for the words at these indexes of a block, rising, and at these fixed addresses."""
    body, counter = bytes([ITEM_BLOCK, block]) if indexes else b"", 0
    for index in indexes:
        while index - counter > 0xFB:
            body += bytes([ITEM_SKIP])
            counter += SKIP
        body += bytes([index - counter])
        counter = index
    for address in addresses:
        body += bytes([ITEM_ADDRESS]) + little(address)
    return body + bytes([ITEM_END])


def sdx_relocatable(number, origin, data):
    return little(RELOCATABLE) + bytes([number, 0]) + little(origin) + little(len(data)) + data


def sdx_reserved(number, origin, length):
    return little(RELOCATABLE) + bytes([number, RESERVE]) + little(origin) + little(length)


def sdx_plain(address, data):
    return little(PLAIN) + little(address) + little(address + len(data) - 1) + data


def sdx_update(number, body):
    return little(UPDATE) + bytes([number]) + little(len(body)) + body


def sdx_names(name, body):
    return little(NAMES) + name + little(len(body)) + body


def sdx_new_name(number, address, name):
    return little(NEW_NAME) + bytes([number]) + little(address) + name


# Points for the first ten places; nobody else has any.
POINTS = [0, 25, 18, 15, 12, 10, 8, 6, 4, 2, 1]

# The score program: adds up the points of the places in a list, which ends with 0, and prints the heat and the sum.
SCORE = [
    Label("main"),
    0xAD, word("HEATINFO", 1),                   # LDA HEATINFO+1  the number of the heat
    0x8D, word("heat"),                          # STA heat
    0xA0, 0x00,                                  # LDY #0
    0xB9, word("places"),                        # LDA places,Y    next
    0xF0, 0x06,                                  # BEQ show
    0x20, word("add"),                           # JSR add
    0xC8,                                        # INY
    0xD0, 0xF5,                                  # BNE next
    0x20, word("PRINTF  "),                      # JSR PRINTF      show: the text and what goes into it follow
    *b"Heat %b: %d\x9B\x00", word("heat"), word("total"),
    0x60,                                        # RTS
    Label("heat"), 0x00,
    Label("total"), 0x00, 0x00,
    Label("points"), *POINTS, *[0] * (256 - len(POINTS)),
    # add: the points of the place in A
    Label("add"),
    0xAA,                                        # TAX
    0x18,                                        # CLC
    0xAD, word("total"),                         # LDA total
    0x7D, word("points"),                        # ADC points,X
    0x8D, word("total"),                         # STA total
    0x90, 0x03,                                  # BCC *+5
    0xEE, word("total", 1),                      # INC total+1
    0x60,                                        # RTS
]

SCORE_BLOCK, PLACES_BLOCK = 1, 2
SCORE_ORIGIN, PLACES_LENGTH = 0x1000, 64

# The names that the bench lends, with their addresses there.
KNOWN = [("PRINTF  ", 0x0F5C), ("HEATINFO", 0x0480)]

NAMES_TEXT = "# Names that score.sdx needs, with their addresses on this bench.\n" + "".join(
    f'"{name}" ${address:04X}\n' for name, address in KNOWN
)


def score_file():
    labels, length = labels_of(SCORE, SCORE_ORIGIN)
    own = set(labels)
    labels["places"] = SCORE_ORIGIN + length
    # A word that a name is added to holds only what goes on top of it.
    labels.update({name: 0 for name, _ in KNOWN})
    code, fields = assembled(SCORE, labels)

    def indexes(names):
        return [index for index, ref in fields if ref.name in names]

    file = sdx_relocatable(SCORE_BLOCK, SCORE_ORIGIN, code)
    file += sdx_reserved(PLACES_BLOCK, labels["places"], PLACES_LENGTH)
    file += sdx_plain(RUN_ADDRESS, little(labels["main"]))
    file += sdx_update(SCORE_BLOCK, update_body(SCORE_BLOCK, indexes(own), [RUN_ADDRESS]))
    file += sdx_update(PLACES_BLOCK, update_body(SCORE_BLOCK, indexes({"places"})))
    for name, _ in KNOWN:
        file += sdx_names(name.encode("ascii"), update_body(SCORE_BLOCK, indexes({name})))
    return file + sdx_new_name(SCORE_BLOCK, labels["add"], b"SCOREADD")


def main():
    folder = sys.argv[1] if len(sys.argv) > 1 else os.path.dirname(os.path.abspath(__file__))
    files = {
        "jump.acx": acx_file(b"", JUMP, "jump"),
        "clock.acx": acx_file(DISK_OPENING, CLOCK, "init"),
        "signal.acx": acx_file(DISK_OPENING, SIGNAL, "init"),
        "twice.acx": TWICE,
        "score.sdx": score_file(),
        "names.txt": NAMES_TEXT.encode("ascii"),
    }
    for name, content in files.items():
        with open(os.path.join(folder, name), "wb") as file:
            file.write(content)


if __name__ == "__main__":
    main()
