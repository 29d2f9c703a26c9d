#!/usr/bin/env python3
"""make.py: writes the example plans (NAME.plan) from their texts (NAME.txt) beside it, the video memory of those that planpic draws (NAME.mem),
and the plans and memories that crates/planxdl_cases and crates/planpic run.

    examples/make.py           writes them; the same bytes each time
    examples/make.py --check   writes nothing, prints each file that is not what it would write, and ends with 1 where there is one
    examples/make.py --help    prints this

It is run from anywhere. A field that is not named has the value that examples/plan gives it. examples/memory.py makes the memory."""
import importlib.machinery
import importlib.util
import pathlib
import sys

HERE = pathlib.Path(__file__).resolve().parent
CRATES = HERE.parent / "crates"
OFF, TEXT, SR, HR, LR = range(5)


def beside(name):
    """a script that stands beside this one, as a module; nothing is left beside it"""
    sys.dont_write_bytecode = True
    loader = importlib.machinery.SourceFileLoader(name, str(HERE / name))
    module = importlib.util.module_from_spec(importlib.util.spec_from_loader(name, loader))
    loader.exec_module(module)
    return module


text = beside("plan")
memory = beside("memory.py")


def full(lines=1, mode=OFF, address=0, step=0, **words):
    return text.item("full", lines=lines, mode=mode, address=address, step=step, **words)


def running(lines=1, hscroll=0, vscroll=0, font=0, width=1, palettes=1, priority=255):
    return text.item("on", lines=lines, hscroll=hscroll, vscroll=vscroll, font=font, width=width, palettes=palettes, priority=priority)


EXAMPLES = ["text_screen", "picture_status", "scrolled_band", "mapped_screen"]
# plans with the memory that they show: crates/planpic draws them, and crates/planxdl_cases does without them
PICTURES = {"small_screen": memory.memory}

TOP = dict(lines=1, mode=LR, address=524287, step=4095, hscroll=7, vscroll=7, font=255, map=1, mapaddress=524287, mapstep=4095,
           maphscroll=31, mapvscroll=31, fieldwidth=32, fieldheight=32, width=2, palettes=15, priority=255)
LOW = dict(width=0, palettes=0, priority=0)
OVER = dict(lines=241, lines_255=255, mode=5, address=524288, step=4096, hscroll=8, vscroll=8, map=2, mapaddress=524288, mapstep=4096,
            maphscroll=32, mapvscroll=32, fieldwidth=33, fieldheight=33, width=3, palettes=16)
UNDER = dict(lines=0, fieldwidth=7, fieldheight=0)
RUNNING = ["hscroll", "vscroll", "font", "width", "palettes", "priority"]

CASES = {
    # refusals in their order, each where its row begins to hold
    "empty": b"",
    "header_of_3": bytes.fromhex("170009"),
    "kind_3": bytes.fromhex("63000300"),
    "kind_257": bytes.fromhex("17000101") + full()[4:],
    "kind_0": bytes.fromhex("17000000") + full()[4:],
    "length_24": bytes.fromhex("18000100"),
    "length_22": bytes.fromhex("16000100") + full()[4:],
    "length_279": bytes.fromhex("17010100") + full()[4:],
    "body_missing": bytes.fromhex("17000100"),
    "body_one_short": full()[:-1],
    "first_cut": bytes.fromhex("0700020001"),
    "first_length_8": bytes.fromhex("08000200") + bytes(8),
    "first_field": running(hscroll=9),
    "first": running(),
    # lines
    "lines_240": full(120) + running(120),
    "lines_241": full(120) + running(121),
    "lines_full_running": full(240) + running(),
    "lines_and_field": full(240) + running(0),
    "lines_and_tail": full(240) + running() + b"\0",
    "lines_full_tail": full(240) + b"\x09",
    "items_240": 240 * full(),
    "items_241": 241 * full(),
    # tails
    "tail_of_1": full() + b"\0",
    "tail_of_3": full() + bytes(3),
    "tail_of_4": full() + bytes(4),
    "tail_after_running": full() + running() + b"\0",
    # the first 8,192 bytes decide
    "bytes_8193": 240 * full() + bytes(1713),
    "bytes_9000": 240 * full() + bytes(2520),
    # what is taken
    "example": full(),
    "modes": full(mode=OFF) + full(mode=TEXT) + full(mode=SR) + full(mode=HR) + full(mode=LR),
    "map": full(map=1) + full(map=0),
    "running_twice": full() + running() + running(),
    "full_after_running": full(2, TEXT, 0x12345, 0xABC) + running(3, 1, 2, 3, 2, 6, 4) + full(5, HR),
    "highest": full(**TOP) + running(**{k: TOP[k] for k in RUNNING}),
    "lowest": full(**LOW) + running(**LOW),
}
for k, v in (OVER | {k + "_low": v for k, v in UNDER.items()}).items():
    CASES["full_" + k] = full(**{**TOP, k.removesuffix("_low").removesuffix("_255"): v})
for k in ["lines"] + RUNNING:
    if k in OVER:
        CASES["running_" + k] = full() + running(**{k: OVER[k]})
CASES["running_lines_low"] = full() + running(0)


def read(path):
    """the plan of a text; a text with a fault ends the work"""
    reader = text.Reader(path.read_text(encoding="utf-8"))
    if reader.faults:
        sys.exit("\n".join(f"{path.name}: {fault}" for fault in reader.faults))
    return reader.plan


def files():
    """each file that is made, and its bytes"""
    examples = {name: read(HERE / (name + ".txt")) for name in EXAMPLES}
    cases = CRATES / "planxdl_cases"
    for name, plan in examples.items():
        yield HERE / (name + ".plan"), plan
    for name, plan in (CASES | examples).items():
        yield cases / "data" / name, plan
    yield cases / "args", "".join(name + "\n" for name in CASES | examples).encode()
    for name, made in PICTURES.items():
        plan, held = read(HERE / (name + ".txt")), made()
        for folder in (HERE, CRATES / "planpic" / "data"):
            yield folder / (name + ".plan"), plan
            yield folder / (name + ".mem"), held


def check():
    """what is not as it would be written; and plans of crates that have an example's name, but other bytes"""
    wrong = [path for path, held in files() if not path.is_file() or path.read_bytes() != held]
    names = EXAMPLES + list(PICTURES)
    for name in names:
        wrong += [path for path in CRATES.glob(f"*/data/{name}.plan") if path.read_bytes() != read(HERE / (name + ".txt"))]
    # what nobody makes
    wrong += [path for end in ("txt", "plan") for path in HERE.glob("*." + end) if path.stem not in names]
    wrong += [path for path in HERE.glob("*.mem") if path.stem not in PICTURES]
    for path in dict.fromkeys(wrong):
        print(f"not as make.py writes it: {path.relative_to(HERE.parent)}")
    return 1 if wrong else 0


def main():
    if sys.argv[1:] == ["--check"]:
        return check()
    if len(sys.argv) > 1:
        asked = sys.argv[1] in ("-h", "--help")
        print(__doc__, file=sys.stdout if asked else sys.stderr)
        return 0 if asked else 2
    for path, held in files():
        path.parent.mkdir(parents=True, exist_ok=True)
        path.write_bytes(held)
    return 0


if __name__ == "__main__":
    sys.exit(main())
