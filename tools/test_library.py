"""The library for C: include/card.h against the sources, and library/ with examples/firmware.c and tools/stack on the archives.

The archives are what `make -C library` wrote: nothing is proved here. Where one is missing or older than its sources, or
no compiler for x86-64 is there, what needs them is passed over, and it says so.
"""

import os
import pathlib
import platform
import re
import shutil
import subprocess
import sys
import tempfile
import unittest

import made

stack = made.tool("tools/stack")

HEADER = (made.ROOT / "include/card.h").read_text(encoding="utf-8")
PARTS = re.findall(r"^firmware_(\w+)_c staticlib:", (made.ROOT / "crates.txt").read_text(encoding="utf-8"), re.M)
ARCHIVES = [stack.FOLDER / f"libfirmware_{part}.a" for part in PARTS]
COMPILER = "cc" if platform.machine() == "x86_64" else "x86_64-linux-gnu-gcc"
STACK_LIMIT = 8192
SIZES = {
    "CARD_NUMBERS": "NUMBER_COUNT",
    "CARD_NAMES": "OCTET_COUNT",
    "CARD_NEIGHBOURS": "NEIGHBOUR_COUNT",
    "CARD_TREES": "TREE_LIMIT",
    "CARD_ROOTS": "ROUTE_LIMIT",
    "CARD_LABELS": "LABEL_COUNT",
    "CARD_OPAQUE_MOST": "OPAQUE_LIMIT",
    "CARD_ELEMENT_MOST": "NAME_LIMIT",
    "CARD_RECORD_MOST": "RECORD_LIMIT",
    "CARD_OUT_MOST": "SENT_LIMIT",
    "CARD_SAVE_MOST": "SAVE_LIMIT",
    "CARD_EIGHT_OCTETS": "EIGHT_SIZE",
    "CARD_SET_OCTETS": "SET_SIZE",
    "CARD_ENTRY_OCTETS": "ENTRY_SIZE",
    "CARD_LIST_MOST": "LIST_LIMIT",
    "CARD_STREAM_NUMBERS": "STREAM_NUMBERS",
    "CARD_STREAM_OCTETS": "STREAM_ROOM",
    "CARD_SERVE_ROOM": "MESSAGE_ROOM",
    "CARD_IDENTIFIER_OCTETS": "IDENTIFIER_SIZE",
}
PLACES = {"16": "CARD_NEIGHBOURS", "5": "CARD_FIELDS", "4": "CARD_LAYER_FIELDS", "2": "CARD_OUTER_LENGTHS"}
LENGTHS = {**{rattle: c for c, rattle in SIZES.items()}, **PLACES}
WIDTHS = {"u8": "uint8_t", "u32": "uint32_t", "u64": "uint64_t", "usize": "size_t", "bool": "bool"}


def constants():
    """The named sizes of the crates that have some."""
    known = {}
    for crate in ("meaning", "meaning_layers", "meaning_plan", "memory", "session"):
        source = (made.ROOT / "crates" / crate / "src/lib.rt").read_text(encoding="utf-8")
        for name, value in re.findall(r"^pub const (\w+): \w+ =([^;]+);", source, re.M):
            words = re.sub(r" as \w+", "", value).replace("/", "//")
            known[name] = eval(" ".join(words.split()), {}, known)  # sums and products of the names above
    return known


def in_c(kind):
    """A parameter of this type as C declares it, without its name."""
    if m := re.fullmatch(r"&(mut )?\[(\w+); (\w+)\]", kind):
        return f"{'' if m.group(1) else 'const '}{WIDTHS[m.group(2)]}[{LENGTHS[m.group(3)]}]"
    if m := re.fullmatch(r"&(mut )?\[(\w+)\]", kind):
        return f"{'' if m.group(1) else 'const '}{WIDTHS[m.group(2)]} *, size_t"
    if m := re.fullmatch(r"&mut (\w+)", kind):
        return f"{WIDTHS[m.group(1)]} *"
    return WIDTHS[kind]


def functions(crate, head):
    """The functions of a crate's source that begin so: name, parameters, result, and clauses."""
    source = (made.ROOT / "crates" / crate / "src/lib.rt").read_text(encoding="utf-8")
    found = re.findall(rf"^{re.escape(head)}(\w+)\(([^)]*)\) -> (\w+)\n((?: +[^\n]*\n)*)\{{$", source, re.M)
    return [tuple(" ".join(part.split()).rstrip(",") for part in parts) for parts in found]


def exports(part):
    return functions(f"firmware_{part}_c", '#[unsafe(no_mangle)]\npub extern "C" fn ')


def exported():
    """The exported calls for C, each as C declares it, without the parameters' names."""
    calls = {}
    for name, inside, result, _ in (call for part in PARTS for call in exports(part)):
        kinds = [p.split(":", 1)[1].strip() for p in re.split(r",(?![^\[]*\])", inside) if p.strip()]
        calls[name] = f"{WIDTHS[result]} {name}({', '.join(in_c(k) for k in kinds)})"
    return calls


def declared():
    """The calls that card.h declares, without the parameters' names."""
    calls = {}
    for result, name, inside in re.findall(r"^(\w+) (card_\w+)\(([^)]*)\);", HEADER, re.M):
        kinds = [re.sub(r"\w+(\[\w+\])?$", r"\1", p.strip()).strip() for p in inside.split(",")]
        calls[name] = f"{result} {name}({', '.join(k.replace(' [', '[') for k in kinds)})"
    return calls


def stack_said():
    """The stack of each call that card.h names."""
    return {name: int(octets) for name, octets in re.findall(r"(card_\w+) {2,}(\d+)", HEADER)}


def missing():
    """Why the archives cannot be tried; None where they can."""
    if not all(a.is_file() for a in ARCHIVES):
        return "target/staticlib has not every archive of calls for C ('make -C library' writes them)"
    sources = [f for folder in ("src", "specs", "proofs") for f in (made.ROOT / "crates").glob(f"*/{folder}/**/*.*t")]
    if min(a.stat().st_mtime for a in ARCHIVES) < max(f.stat().st_mtime for f in sources):
        return "an archive in target/staticlib is older than its sources ('make -C library' writes it anew)"
    return None


def needs_archive(what):
    """Skips a test where the archives are not of these sources, and says so."""
    why = missing()
    if not why:
        return lambda test: test
    print(f"tools' tests: {why}, so {what}", file=sys.stderr)
    return unittest.skip(why)


def make_command(*words):
    """`make` in library/, with the archives taken as they are."""
    kept = [word for part in PARTS for word in ("-o", f"../target/staticlib/libfirmware_{part}.a")]
    return ["make", "-s", "--no-print-directory", "-C", made.ROOT / "library", *kept, *words]


class Header(unittest.TestCase):
    def test_sizes_are_those_of_the_sources(self):
        known = constants()
        named = {(c, int(size)) for c, size in re.findall(r"(CARD_\w+) = (\d+)", HEADER)}
        for c, rattle in SIZES.items():
            self.assertIn((c, known[rattle]), named)
        for size, c in PLACES.items():
            self.assertIn((c, int(size)), named)

    def test_every_call_is_declared_as_it_is_exported(self):
        self.assertEqual(declared(), exported())

    def test_every_export_is_that_of_its_library(self):
        for part in PARTS:
            self.assertGreater(len(exports(part)), 0)
            self.assertEqual(exports(part), functions(f"firmware_{part}", "pub fn "))

    def test_every_call_has_its_stack(self):
        self.assertEqual(set(stack_said()), set(exported()))
        self.assertLessEqual(max(stack_said().values()), STACK_LIMIT)


class Stack(unittest.TestCase):
    def test_a_listing(self):
        listing = """
0000000000000000 <f>:
   0:\tpush   %rbx
   1:\tsub    $0x20,%rsp
   5:\ttest   %rdi,%rdi
   8:\tje     14 <f+0x14>
   a:\tcall   f <f+0xf>
\t\t\tb: R_X86_64_PLT32\t.text.g-0x4
   f:\tmov    %rax,-0x40(%rsp)
  14:\tadd    $0x20,%rsp
  18:\tpop    %rbx
  19:\tjmp    1e <f+0x1e>
\t\t\t1a: R_X86_64_PLT32\tmemcpy-0x4

0000000000000000 <g>:
   0:\tret
"""
        functions = stack.functions_in(listing)
        # return address, push, 0x20, and 0x40 below them; g at the depth of the call, memcpy in the place of f
        self.assertEqual(stack.deepest(functions["f"]), (8 + 8 + 0x20 + 0x40, {"g": 8 + 8 + 0x20, "memcpy": 0}))
        self.assertEqual(stack.deepest(functions["g"]), (8, {}))

    def test_a_function_that_calls_itself(self):
        listing = "0000000000000000 <f>:\n   0:\tsub    $0x18,%rsp\n   4:\tcall   0 <f>\n   9:\tadd    $0x18,%rsp\n   d:\tret\n"
        self.assertEqual(stack.deepest(stack.functions_in(listing)["f"]), (8 + 0x18, {"f": 8 + 0x18}))
        most = re.search(r"CARD_LAYERS_MOST = (\d+)", HEADER).group(1)
        self.assertEqual({str(times) for times in stack.DEEPEST.values()}, {most})

    def test_a_jump_by_a_table(self):
        listing = """0000000000000000 <f>:
   0:\tlea    0x0(%rip),%rcx
\t\t\t3: R_X86_64_PC32\t.rodata.f-0x4
   7:\tjmp    *%rax
   9:\tsub    $0x40,%rsp
   d:\tadd    $0x40,%rsp
  11:\tret
"""
        records = """RELOCATION RECORDS FOR [.rodata.f]:
OFFSET           TYPE              VALUE
0000000000000000 R_X86_64_PC32     .text.f+0x0000000000000009
0000000000000004 R_X86_64_PC32     .text.f+0x0000000000000015
"""
        steps, entries = stack.functions_in(listing)["f"], stack.tables_in(records)["f"]
        # the second entry is reckoned from its own place, four octets behind the table's beginning
        self.assertEqual(stack.jumps(steps, entries), {0x9, 0x11})
        self.assertEqual(stack.deepest(steps, entries), (8 + 0x40, {}))

    def test_what_cannot_be_followed(self):
        for step in ("jmp    *%rax", "call   *%rax", "sub    %rax,%rsp", "and    $-0x20,%rsp"):
            with self.assertRaises(stack.CannotFollow):
                stack.deepest(stack.functions_in(f"0000000000000000 <f>:\n   0:\t{step}\n   4:\tret\n")["f"])

    @unittest.skipUnless(stack.objdump(), "no objdump for x86-64")
    @needs_archive("the stack that card.h names is not held to it")
    def test_no_call_takes_more_than_the_header_says(self):
        said = stack_said()
        for archive in ARCHIVES:
            for name, octets in stack.measured(archive, stack.objdump()).items():
                self.assertLessEqual(octets, said[name], name)

    @unittest.skipUnless(stack.objdump(), "no objdump for x86-64")
    @needs_archive("what the calls need from outside is not held to card.h")
    def test_no_call_needs_more_than_the_header_says(self):
        said = set(re.search(r"nothing outside the library but (\w+) and (\w+)", HEADER).groups())
        for archive in ARCHIVES:
            symbols = subprocess.run([stack.objdump(), "-t", archive], capture_output=True, text=True, check=True).stdout
            self.assertLessEqual({line.split()[-1] for line in symbols.splitlines() if "*UND*" in line}, said, archive)


@made.needs(COMPILER, "examples/firmware.c is not built (no compiler for x86-64)")
@made.needs("pkg-config", "examples/firmware.c is not built through it")
@needs_archive("examples/firmware.c is not built")
class Library(unittest.TestCase):
    def make(self, *words):
        return subprocess.run(make_command(*words), capture_output=True, text=True, check=False)

    def test_installed_and_taken_away(self):
        with tempfile.TemporaryDirectory() as folder:
            self.assertEqual(self.make("install", f"PREFIX={folder}").returncode, 0)
            files = {str(f.relative_to(folder)) for f in pathlib.Path(folder).rglob("*") if f.is_file()}
            self.assertEqual(files, {"include/card.h", *(f"lib/libcard_{part}.a" for part in PARTS), "lib/pkgconfig/card.pc"})
            flags = subprocess.run(
                ["pkg-config", "--cflags", "--libs", "card"],
                env={**os.environ, "PKG_CONFIG_LIBDIR": f"{folder}/lib/pkgconfig"},
                capture_output=True,
                text=True,
                check=True,
            ).stdout
            self.assertEqual(flags.split(), [f"-I{folder}/include", f"-L{folder}/lib", *(f"-lcard_{part}" for part in PARTS)])
            self.assertEqual(self.make("uninstall", f"PREFIX={folder}").returncode, 0)
            self.assertEqual([f for f in pathlib.Path(folder).rglob("*") if f.is_file()], [])

    def test_example(self):
        with tempfile.TemporaryDirectory() as folder:
            ran = self.make("example", f"build={folder}")
            self.assertEqual(ran.returncode, 0, ran.stdout + ran.stderr)
            self.assertEqual(ran.stdout.split("\n")[-2], "as the paper has it")

    def test_net(self):
        with tempfile.TemporaryDirectory() as folder:
            ran = self.make("net", f"build={folder}")
            self.assertEqual(ran.returncode, 0, ran.stdout + ran.stderr)
            card, slip = (re.fullmatch(r"1000000 turns, (\d+) packets handed to leaves, (\d+) barks", line).groups() for line in ran.stdout.splitlines())
            self.assertGreater(int(card[0]), 10000)
            self.assertEqual(int(card[1]), 0)
            self.assertGreater(int(slip[1]), 0, "the planted slip is not heard")

    @made.needs("g++", "card.h is not read as C++")
    def test_header_as_c_plus_plus(self):
        words = ["g++", "-x", "c++", "-std=c++17", "-Wall", "-Wextra", "-Werror", "-fsyntax-only", made.ROOT / "include/card.h"]
        self.assertEqual(subprocess.run(words, capture_output=True, text=True, check=False).stderr, "")


if __name__ == "__main__":
    unittest.main()
