"""How the scripts store cases: a crate's case files, the sections of its `stdout`, and the outputs that cases write into."""
import pathlib
import sys

CRATES = pathlib.Path(__file__).resolve().parent.parent / "crates"


def number(n, size=4):
    """A number as case files have it: unsigned, high byte first."""
    return n.to_bytes(size, "big")


def output(size, front=b""):
    """An output of this size that begins with `front` and is else as every case finds it: byte i is (i*7+3) mod 256."""
    return front + bytes((i * 7 + 3) % 256 for i in range(len(front), size))


def hashed(content):
    """The hash by which a line tells of many bytes."""
    h = 0
    for byte in content:
        h = (h * 31 + byte) % 2**32
    return h


def outside(crate, way=""):
    """The names and lines of a crate's outside cases in a way, which stand in its `stdout` before our own."""
    there = (CRATES / crate / "stdout").read_text().split("\n")
    return [(f"outside case {i}", line) for i, line in enumerate(there[there.index("outside" + way) + 1:there.index("own" + way)], 1)]


def cut_at_every_place(cases, longest):
    """The names and lines of the files, no longer than this, that are cut in two at every place: the answer holds for as many cuts as the file has
    bytes, and one. A case is a name, a file and a line."""
    return [(name, f"{line} {len(file) + 1} cuts alike") for name, file, line in cases if len(file) <= longest]


def read_cases(crate, name):
    return (CRATES / crate / "data" / name).read_bytes()


def write_cases(crate, name, cases):
    (CRATES / crate / "data" / name).write_bytes(b"".join(cases))


def write_stdout(crate, sections):
    """Writes the sections, each a title and the names and lines of its cases, in place of what stands from the first of these titles on."""
    stdout = CRATES / crate / "stdout"
    there = stdout.read_text().split("\n")
    lines = there[:there.index(sections[0][0])]
    for title, cases in sections:
        lines.append(title)
        for name, line in cases:
            lines.append(line)
            if "--list" in sys.argv:
                print(f"crates/{crate}/stdout:{len(lines)}: {name}: {line}")
    stdout.write_text("\n".join(lines) + "\n")


def run(main, usage):
    """Calls a script's main where its arguments are right, and else prints how it is used."""
    if sys.argv[1:] not in ([], ["--list"]):
        sys.exit(usage)
    main()
