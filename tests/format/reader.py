"""A reader of sealed books by the pages FORMAT and REFUSALS alone; names in quotation marks are their sections.

    reader.py FILE                      checks the cases of FILE: lines `key book answer`, in hexadecimal
    reader.py --units KEYHEX BOOKFILE   prints the units of the book whose bytes are in BOOKFILE
    reader.py --example FORMAT.md       checks the sections "An example" and "An older book" of that page
"""
import re
import sys
from collections import namedtuple

# "A book, byte by byte": a row for each kind. First four tags: of a unit's first field, of its ciphertext, of the tag
# of a seal, of the close. Then how many bytes a unit's number and the count in the close have.
Kind = namedtuple("Kind", "unit ciphertext seal close width")
KINDS = [Kind(unit=b"\x14", ciphertext=b"\x11", seal=b"\x12", close=b"\x21", width=4),
         Kind(unit=b"\x10", ciphertext=b"\x11", seal=b"\x12", close=b"\x20", width=2)]
# "Reading a book", 4: the units at most, whatever the kind. In a book of kind 10 no number is that high.
UNITS_AT_MOST = 16777215
# "A book, byte by byte", opening fields: the ciphers and their steps.
SCREAM, ISCREAM = 1, 2
STEPS = {SCREAM: (6, 8, 10, 12), ISCREAM: (8, 10, 12, 14)}

# REFUSALS, "The table": the numbers that checking a book can give.
SUITE_NOT_LISTED, KEY_LENGTH, TAG_DIFFERS, LANGUAGES = 1, 2, 8, 11
SEGMENT_LENGTH, TOO_MANY_UNITS, FIELD_MALFORMED, UNIT_NUMBER = 12, 13, 14, 15

# "The ciphers", L-boxes: the word for bit 0 first. iScream's is its own inverse.
L_BOX = {SCREAM: "385C 52A9 7BB3 96C1 D76D 3AE0 E524 FEA5 464B F1AF A133 7F74 6712 7A6F 701B 8AB1",
         ISCREAM: "FFFE CCC1 AAA1 9991 6689 5585 3383 007F E069 D055 B033 700F 0E69 0D55 0B33 070F"}
L_INVERSE = {SCREAM: "E79E 7704 2AD1 6313 DC05 AEF6 2939 82AE 1E54 B9BE 19D8 A8A5 6ABF 7EE5 7BD6 86D8",
             ISCREAM: L_BOX[ISCREAM]}

# "The ciphers", S-boxes: the value at 00 first. The inverse has x at the place S[x].
S_BOX = {SCREAM: bytes.fromhex("""
1E755FE199FC892F86EEF17B235210940CB74D67D842C8D6C46BAABA3DA50033532D0BB8DAA8C56CCAB6A42260075DD74FF41532811B9C8E
913FE6F970E9437E8DF3CC65087A18AB166A77FDA7C082049F31DEE349D0594654EF2E3CBB2192B5553E0FA9DCB9C17FCEA6B43072035BD1
4BE41320851D9A8A972CF6E862F8476D294168D5ACCBBE1AB0DBC74E176426A039837851ED76FFE2F25C9D8F0A93340525587CCDAFDFB319
BDC2D25614712AA33A806144F56EEBFBE748908C069E370998E5D9731F6F0DBC027D63EAB1D496128827C9F75EC64C5040FA3B2BAE3584A1
01695AFE8BEC95289BF0E06624570E871CB24574D34ACFDDC379A2BF36AD1138"""), ISCREAM: bytes.fromhex("""
008565D25BFF7ACE4DE22C369215BDAD57F3372D880DACBC189F7ECA41EE61D659EC78D447F926A3908BBF300A136FC02BAE918AD8740B12
CC63FD43B23DE85DB61C833BC8459D2452DDE4F4AB08776DF5E548C56C76BA109920A704873FD05FA51E9B39B002EA67C6DF71F6544F8D2E
E76AC7DE3597554E228106B47CFB1AA1D579FC428401E95C14933329C16EA8B828320C89B9A9D975ED58CD62F8469E19CB7FA227D760FE5A
8E95E34C160F31BE64D33CB37BCF40EF8F9456F2170EAF2A2F8CF1E1DC53687244C91BA0389A07B55ED103B123801FA43496E0F0C4497369
DAC309AA4A51F7703E8666EB21981DB7DBC2BB114B506BE69C25FA7D823AA605""")}
S_INVERSE = {cipher: bytes(s_box.index(value) for value in range(256)) for cipher, s_box in S_BOX.items()}

class Refused(Exception):
    """A refusal, with its number in REFUSALS."""
def require(holds, refusal):
    if not holds:
        raise Refused("refused:%d" % refusal)

def xor(a, b):
    return bytes(x ^ y for x, y in zip(a, b))  # as many bytes as the shorter one has

# "The ciphers". A state is 8 rows: row i has byte 2i as its low half and byte 2i + 1 as its high half.
def to_state(block):
    return [block[2 * i] | block[2 * i + 1] << 8 for i in range(8)]
def to_block(state):
    return b"".join(row.to_bytes(2, "little") for row in state)

def columns_through(s_box, state):
    """Each of the 16 columns, as a byte, goes through the S-box; row 0 gives the lowest bit."""
    columns = [sum((state[i] >> j & 1) << i for i in range(8)) for j in range(16)]
    return [sum((s_box[columns[j]] >> i & 1) << j for j in range(16)) for i in range(8)]

def rows_through(l_box, state):
    """Each of the 8 rows goes to the xor of the words for each of its bits that is set."""
    after = [0] * 8
    for j, word in enumerate(l_box.split()):
        after = [after[i] ^ (int(word, 16) if state[i] >> j & 1 else 0) for i in range(8)]
    return after

class Cipher:
    """E and D of "Sealing" under a suite and a key; `calls` gets tweak, block, and what the block becomes."""
    def __init__(self, cipher, steps, key):
        self.cipher, self.steps, self.key, self.calls = cipher, steps, key, []

    def add_tweakey(self, state, tweak, sigma):  # TK(sigma) of the table "Tweakeys"
        if self.cipher == SCREAM:
            x, y = tweak[:8], tweak[8:]
            for _ in range(sigma % 3):
                x, y = xor(x, y), x
            tweakey = to_state(xor(self.key, x + y))
        elif sigma % 2 == 0:
            tweakey = to_state(xor(self.key, tweak))
        else:
            tweakey = [(row << 1 | row >> 15) & 0xFFFF for row in to_state(tweak)]
        return [row ^ other for row, other in zip(state, tweakey)]

    def E(self, tweak, block):
        state = self.add_tweakey(to_state(block), tweak, 0)
        for sigma in range(1, self.steps + 1):
            for r in (2 * sigma - 1, 2 * sigma):
                state = columns_through(S_BOX[self.cipher], state)
                state[0] ^= 27 * r % 256
                state = rows_through(L_BOX[self.cipher], state)
            state = self.add_tweakey(state, tweak, sigma)
        self.calls.append((tweak, block, to_block(state)))
        return to_block(state)

    def D(self, tweak, block):  # undoes E from the end
        state = to_state(block)
        for sigma in range(self.steps, 0, -1):
            state = self.add_tweakey(state, tweak, sigma)
            for r in (2 * sigma, 2 * sigma - 1):
                state = rows_through(L_INVERSE[self.cipher], state)
                state[0] ^= 27 * r % 256
                state = columns_through(S_INVERSE[self.cipher], state)
        state = self.add_tweakey(state, tweak, 0)
        self.calls.append((tweak, block, to_block(state)))
        return to_block(state)

# "Sealing" and "Opening".
def make_tweak(nonce, first, i=0):
    """The nonce and then 16 - n bytes: i in all of them, with `first` added to the first byte."""
    behind = i.to_bytes(16 - len(nonce), "big")
    return nonce + bytes([behind[0] + first]) + behind[1:]

def blocks(data, nonce, not_last, full, partial):
    """Each block with its tweak and whether it is the last; the tweak's byte behind the nonce is one of the three."""
    for i in range((len(data) + 15) // 16):
        block, last = data[16 * i:16 * i + 16], 16 * i + 16 >= len(data)
        of_last = make_tweak(nonce, full if len(block) == 16 else partial)
        yield block, of_last if last else make_tweak(nonce, not_last, i), last

def header_sum(cipher, nonce, header):
    total = bytes(16)
    for block, tweak, _ in blocks(header, nonce, 0x80, 0xD0, 0xD8):
        filled_up = block if len(block) == 16 else (block + b"\x80").ljust(16, b"\0")
        total = xor(total, cipher.E(tweak, filled_up))
    return total

def undo_ciphertext(cipher, nonce, ciphertext):
    text = b""
    for block, tweak, last in blocks(ciphertext, nonce, 0x00, 0xC0, 0xC8):
        if last:
            text += xor(block, cipher.E(tweak, bytes(15) + bytes([8 * len(block)])))
        else:
            text += cipher.D(tweak, block)
    return text

def checksum(text):
    total = bytes(16)
    for at in range(0, len(text), 16):
        total = xor(total, text[at:at + 16].ljust(16, b"\0"))
    return total

# "Reading a book", and the order `sb_check` of REFUSALS.
class Book:
    def __init__(self, key, data):
        """Reads the whole book, or raises Refused; `at` is the place up to which it is read."""
        require(len(key) == 16, KEY_LENGTH)
        self.data, self.at, self.units = data, 0, []
        self.opening_fields(key)
        # Byte 16 says the kind: it is the tag of a unit's first field or of the close.
        kinds = [kind for kind in KINDS if data[16:17] in (kind.unit, kind.close)]
        require(kinds, FIELD_MALFORMED)
        while data[self.at:self.at + 1] != kinds[0].close:
            self.units.append(self.unit(kinds[0]))
        self.close(kinds[0])

    def field(self, tag, shortest, longest=None):
        """"Fields": a tag of one byte, a length of two bytes, and a value of that many bytes."""
        start, length = self.at + 3, int.from_bytes(self.data[self.at + 1:self.at + 3], "big")
        require(self.data[self.at:self.at + 1] == tag and start + length <= len(self.data), FIELD_MALFORMED)
        require(shortest <= length <= (longest or shortest), FIELD_MALFORMED)
        self.at = start + length
        return self.data[start:self.at]

    def opening_fields(self, key):
        self.book_number = self.field(b"\x01", 8)
        cipher, steps = self.field(b"\x02", 2)
        require(steps in STEPS.get(cipher, ()), SUITE_NOT_LISTED)
        self.opening, self.cipher = self.data[:self.at], Cipher(cipher, steps, key)

    def unit(self, kind):
        start = self.at
        value = self.field(kind.unit, kind.width + 4)
        first_field, codes = self.data[start:self.at], value[kind.width:]
        require(len(self.units) < UNITS_AT_MOST, TOO_MANY_UNITS)
        require(int.from_bytes(value[:kind.width], "big") == len(self.units), UNIT_NUMBER)
        require(re.fullmatch(b"[a-z]{4}", codes), LANGUAGES)
        ciphertext = self.field(kind.ciphertext, 3, 8194)
        text = self.open_seal(first_field, ciphertext, self.field(kind.seal, 16))
        s = int.from_bytes(text[:2], "big")
        require(1 <= s <= 4096 and 0 <= len(text) - 2 - s <= 4096, SEGMENT_LENGTH)
        return codes[:2].decode(), codes[2:].decode(), text[2:2 + s], text[2 + s:]

    def close(self, kind):
        start = self.at
        count = self.field(kind.close, kind.width)
        first_field, tag = self.data[start:self.at], self.field(kind.seal, 16)
        require(int.from_bytes(count, "big") == len(self.units), UNIT_NUMBER)
        self.open_seal(first_field, b"", tag)
        require(self.at == len(self.data), FIELD_MALFORMED)

    def open_seal(self, first_field, ciphertext, tag):
        """Of unit k, or of the close of a book with k units: the text, if all 16 bytes of the tag agree."""
        nonce = self.book_number + len(self.units).to_bytes(4, "big")
        total = header_sum(self.cipher, nonce, self.opening + first_field)
        text = undo_ciphertext(self.cipher, nonce, ciphertext)
        tweak = make_tweak(nonce, 0xE0 if text and len(text) % 16 == 0 else 0xE8)
        require(tag == xor(self.cipher.E(tweak, checksum(text)), total), TAG_DIFFERS)
        return text

# The three uses of the program.
def answer(key, data):
    try:
        book = Book(key, data)
        return "ok:%d:%d" % (len(book.units), len(book.cipher.calls))
    except Refused as refused:
        return str(refused)

def check_cases(path):
    lines = enumerate(open(path, encoding="ascii").read().splitlines(), 1)
    cases = [(place, *line.split(" ")) for place, line in lines if line and not line.startswith("#")]
    differ = 0
    for place, key, data, expected in cases:
        found = answer(bytes.fromhex(key), bytes.fromhex(data))
        if found != expected:
            differ += 1
            print("line %d: expected %s, found %s" % (place, expected, found))
    print("%d cases, %d differ" % (len(cases), differ))
    return cases and not differ

def print_units(key, path):
    for k, unit in enumerate(Book(bytes.fromhex(key), open(path, "rb").read()).units):
        print(k, *unit)
    return True

def check_section(page, heading):
    section = page.split("\n## %s\n" % heading)[1].split("\n## ")[0]
    key = re.search(r"^`([0-9A-F]{32})`$", section, re.M)[1]
    rows = re.findall(r"^\| (\d+) \| `(.*?)` \|", section, re.M)
    data = bytes.fromhex("".join(value for _, value in rows))
    same_places = all(data[int(at):].startswith(bytes.fromhex(value)) for at, value in rows)
    book = Book(bytes.fromhex(key), data)
    said = re.search(r'from (\w+) to (\w+) with the source "(.*?)" and the target\s"(.*?)"', section)
    same_unit = book.units == [(said[1], said[2], said[3].encode(), said[4].encode())]
    table = re.findall(r"^\| \d+: [^|]*\| `(.*?)` \| `(.*?)` \| `(.*?)` \|$", section, re.M)
    same_calls = book.cipher.calls == [tuple(bytes.fromhex(cell) for cell in row) for row in table]
    same_numbers = re.search(r"(\d+)\sbytes\sand\s(\d+)\scalls", section).groups() == (str(len(data)), str(len(table)))
    print("%s: %d bytes as said: %s; unit: %s; %d calls: %s; both numbers: %s"
          % (heading, len(data), same_places, same_unit, len(table), same_calls, same_numbers))
    return same_places and same_unit and same_calls and same_numbers

def check_example(path):
    page = open(path, encoding="utf-8").read()
    return all([check_section(page, heading) for heading in ("An example", "An older book")])

if __name__ == "__main__":
    if len(sys.argv) < 2:
        sys.exit(__doc__)
    try:
        use = {"--units": print_units, "--example": check_example}.get(sys.argv[1])
        sys.exit(0 if (use(*sys.argv[2:]) if use else check_cases(sys.argv[1])) else 1)
    except Refused as refused:
        sys.exit(str(refused))
