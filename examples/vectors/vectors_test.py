import json
import pathlib
import unittest

from my_sdk import types  # {"TypeTag": TypeTag, "StructTag": StructTag, ..}


class Vectors(unittest.TestCase):
    def test_vectors(self):
        lines = [json.loads(line) for line in pathlib.Path("vectors.jsonl").read_text().splitlines()]
        self.assertTrue(lines)
        for line in (line for line in lines if "text" not in line):
            data, type = bytes.fromhex(line["bytes"]), types[line["format"]]
            with self.subTest(**line):
                if "refused" in line:
                    self.assertRaises(ValueError, type.from_bytes, data)
                    continue
                self.assertEqual(type.from_bytes(data).to_bytes(), data)
                if "json" in line:  # if the types read this JSON
                    self.assertEqual(type.from_json(line["json"]).to_bytes(), data)
