"""The structures and functions of ctypes beside the headers of C."""

import ctypes
import re
import unittest
from pathlib import Path

from tuhvondi import _library, status

INCLUDE = Path(__file__).resolve().parents[3] / "include"
HEADERS = ["tuhvondi.h", "tuhvondi_router.h", "tuhvondi_network.h"]
NUMBERS = {"uint8_t": ctypes.c_uint8, "uint16_t": ctypes.c_uint16, "uint32_t": ctypes.c_uint32,
           "uint64_t": ctypes.c_uint64, "size_t": ctypes.c_size_t, "bool": ctypes.c_bool}
# Python has no writers and readers: its interpreter runs one thread at a time.
LEFT_OUT = re.compile(r"tuhvondi_(writer|reader)|\w+_status_text")


def text_of(header):
    """A header without comments and without the lines of its preprocessor."""
    text = re.sub(r"(?s)/\*.*?\*/", "", (INCLUDE / header).read_text(encoding="utf-8"))
    return re.sub(r"(?m)^#(?:.*\\\n)*.*$", "", text)


def type_of(words):
    """The type of ctypes of a declaration such as `const struct tuhvondi_row *rows`."""
    words = words.replace("const ", "").strip()
    stars = words.count("*")
    name = re.match(r"(?:struct )?(\w+)", words)[1]
    if name == "void":
        return ctypes.c_void_p
    found = NUMBERS.get(name) or _library.STRUCTURES[name]
    return ctypes.POINTER(found) if stars else found


class Headers(unittest.TestCase):
    """Each header that is there. An installed package has none beside it."""

    def texts(self):
        there = [header for header in HEADERS if (INCLUDE / header).exists()]
        if not there:
            self.skipTest("no header is there")
        return [(header, text_of(header)) for header in there]

    def test_functions(self):
        for header, text in self.texts():
            found = re.findall(r"(?m)^(uint32_t|void) (tuhvondi_\w+)\(([^)]*)\);", text)
            self.assertTrue(found, header)
            for answer, name, arguments in found:
                if LEFT_OUT.match(name):
                    continue
                with self.subTest(name):
                    types = [type_of(words) for words in " ".join(arguments.split()).split(",")]
                    self.assertEqual(_library.FUNCTIONS[name], types)
                    self.assertEqual(answer == "void", name.endswith("_free"))

    def test_structures(self):
        for _, text in self.texts():
            for name, body in re.findall(r"(?m)^struct (tuhvondi_\w+) \{([^}]*)\};", text):
                if LEFT_OUT.match(name):
                    continue
                with self.subTest(name):
                    fields = []
                    for line in filter(None, map(str.strip, body.split(";"))):
                        field, size = re.match(r".*?(\w+)(\[\w+\])?$", line).groups()
                        each = type_of(line)
                        fields.append((field, each * _library.PORTS if size else each))
                    mine = _library.STRUCTURES[name]
                    if mine is _library.Handle:
                        fields[0] = ("held_", fields[0][1])
                    self.assertEqual(mine._fields_, fields)

    def test_sizes(self):
        for _, text in self.texts():
            for name, size in re.findall(r"TUHVONDI_ASSERT\(sizeof\(struct (\w+)\) == (\d+)", text):
                if not LEFT_OUT.match(name):
                    self.assertEqual(ctypes.sizeof(_library.STRUCTURES[name]), int(size), name)

    def test_statuses(self):
        for header, text in self.texts():
            for body in re.findall(r"enum tuhvondi_(?:network_)?status \{([^}]*)\}", text):
                for name, number in re.findall(r"TUHVONDI_(\w+) = (\d+)", body):
                    if name == "DONE":
                        continue
                    known = status.BY_NETWORK if "network" in header else status.BY_ROUTER
                    mine = "EmptyHandle" if name.endswith("_HELD") else name.title().replace("_", "")
                    self.assertEqual(known[int(number)].__name__, mine)


if __name__ == "__main__":
    unittest.main()
