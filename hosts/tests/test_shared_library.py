"""What hosts/build makes of the library: where its functions start, and what it asks of the program that loads it."""

from __future__ import annotations

import struct
import unittest
from typing import Iterator, NamedTuple

from support_host import MODEL

from taffrail import library

HEADER = struct.Struct("<16x2HI3QI6H")  # of an ELF file of 64 bits
SECTION = struct.Struct("<2I4Q2I2Q")
SYMBOL = struct.Struct("<IBBH2Q")
SYMBOLS, DYNAMIC_SYMBOLS = 2, 11  # kinds of table
FUNCTION = 2  # a kind of symbol
UNDEFINED = 0  # a section


class Symbol(NamedTuple):
    name: str
    kind: int
    section: int
    address: int


def symbols_of(data: bytes, kind: int) -> Iterator[Symbol]:
    """The symbols of the tables of that kind, without the nameless first."""
    header = HEADER.unpack_from(data)
    start, size, count = header[5], header[10], header[11]
    sections = [SECTION.unpack_from(data, start + size * i) for i in range(count)]
    for section in sections:
        if section[1] == kind:
            names = sections[section[6]][4]
            table = data[section[4] : section[4] + section[5]]
            for name, info, _, where, address, _ in SYMBOL.iter_unpack(table):
                text = data[names + name : data.index(b"\0", names + name)].decode()
                if text:
                    yield Symbol(text, info & 15, where, address)


@unittest.skipIf(MODEL, "the model is no library")
class SharedLibrary(unittest.TestCase):
    data = b""

    @classmethod
    def setUpClass(cls) -> None:
        with open(library.find(), "rb") as file:
            cls.data = file.read()

    def test_functions_start_at_multiples_of_64(self) -> None:
        functions = [s for s in symbols_of(self.data, SYMBOLS) if s.kind == FUNCTION]
        self.assertGreater(len(functions), 5)
        self.assertEqual([s for s in functions if s.address % 64], [])

    def test_it_asks_for_memset_alone(self) -> None:
        wanted = [s for s in symbols_of(self.data, DYNAMIC_SYMBOLS) if s.section == UNDEFINED]
        self.assertEqual([s.name for s in wanted], ["memset"])


if __name__ == "__main__":
    unittest.main()
