"""The structs, the statuses and the calls of the package are those of the C header."""
import ctypes
import os
import re
import shutil
import tempfile
import unittest

from dnstext import _library as library

import support

HEADER = f"{support.TOP}/c/include/dnstext.h"
STRUCTS = {"outcome": library.Outcome, "kept_name": library.KeptName, "zone": library.Zone, "record": library.Record,
           "lexer": library.Lexer, "piece": library.Piece}
STATUSES = ("OK", "END", "NO_ROOM", "INCLUDE", "RELATIVE_NAME", "GENERATE", "BAD_GENERATE")
# The parameters of the header, by the types of the package.
TYPES = {
    "const uint8_t *": "c_char_p", "uint8_t *": "c_void_p", "size_t": "c_ulong", "uint16_t": "c_ushort",
    "uint32_t": "c_uint", "uint64_t": "c_ulong", "uint32_t *": "LP_c_uint", "uint16_t *": "LP_c_ushort",
    "struct dnstext_zone *": "LP_Zone", "const struct dnstext_record *": "LP_Record", "struct dnstext_record *": "LP_Record",
    "struct dnstext_lexer *": "LP_Lexer", "struct dnstext_piece *": "LP_Piece", "struct dnstext_outcome *": "LP_Outcome",
    "void": "",
}


class Layout(unittest.TestCase):
    def test_structs(self):
        """Sizes, offsets and numbers as a C compiler has them."""
        compiler = os.environ.get("CC", "cc")
        if not shutil.which(compiler):
            self.skipTest("no cc: the layout of structs is not compared")
        lines, wanted = [], []
        for name, struct in STRUCTS.items():
            lines.append(f'sizeof(struct dnstext_{name})')
            wanted.append(ctypes.sizeof(struct))
            for field, *_ in struct._fields_:
                lines += [f"offsetof(struct dnstext_{name}, {field})", f"sizeof(((struct dnstext_{name} *)0)->{field})"]
                wanted += [getattr(struct, field).offset, getattr(struct, field).size]
        for status in STATUSES:
            lines.append(f"(size_t)DNSTEXT_{status}")
            wanted.append(getattr(library, status))
        with tempfile.TemporaryDirectory() as folder:
            with open(f"{folder}/a.c", "w", encoding="ascii") as file:
                file.write("#include <dnstext.h>\n#include <stdio.h>\nint main(void) {\n")
                file.writelines(f'    printf("%zu\\n", {it});\n' for it in lines)
                file.write("    return 0;\n}\n")
            support.run([compiler, "-I", os.path.dirname(HEADER), f"{folder}/a.c", "-o", f"{folder}/a"])
            found = list(map(int, support.run([f"{folder}/a"]).split()))
        self.assertEqual(dict(zip(lines, found)), dict(zip(lines, wanted)))

    def test_calls(self):
        """Each call has the parameters of its declaration, and each has a declaration."""
        with open(HEADER, encoding="ascii") as file:
            text = re.sub(r"/\*.*?\*/", "", file.read(), flags=re.S)
        declared = dict(re.findall(r"^(?:uint32_t |const char \*)dnstext_(\w+)\(([^)]*)\);", text, re.M))
        names = {it.__name__: it for it in vars(library).values() if hasattr(it, "argtypes") and hasattr(it, "errcheck")}
        self.assertGreater(len(names), 20)
        for name, call in names.items():
            found = [it.__name__ for it in call.argtypes]
            parameters = re.sub(r"\s+", " ", declared[name.removeprefix("dnstext_")]).split(", ")
            wanted = [TYPES[re.sub(r"\w+$", "", it).strip() if it != "void" else it] for it in parameters]
            if name == "dnstext_record_next":
                # (all of its pointers are without types)
                wanted = ["c_void_p" if it.startswith(("LP_", "c_char_p")) else it for it in wanted]
            self.assertEqual(found, [it for it in wanted if it], name)


if __name__ == "__main__":
    unittest.main()
