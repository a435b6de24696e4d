"""A value that is one byte string is read from its digits as they are, without a document."""

import unittest
import unittest.mock

from bcs_proved import Format, Registry, reading

FORMATS: list[Format] = ['"BYTES"', {"SEQ": "U8"}, {"TYPENAME": "N"}]


class ByteStrings(unittest.TestCase):
    def test_no_document_is_read(self) -> None:
        registry = Registry({"N": {"NEWTYPESTRUCT": "BYTES"}})
        for length in (0, 1, 127, 2000, 2001, 100_000, 1_000_000):
            value = bytes(number * 7 & 255 for number in range(length))
            data = registry.encode('"BYTES"', value)
            with unittest.mock.patch.object(reading, "_parsed", side_effect=AssertionError):
                for format in FORMATS:
                    self.assertEqual(registry.decode(format, data), value)
                    self.assertEqual(registry.decode_prefix(format, data + b"\7"), (value, len(data)))
                    self.assertEqual(registry.normalise(format, value), value)


if __name__ == "__main__":
    unittest.main()
