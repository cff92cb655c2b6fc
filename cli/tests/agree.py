#!/usr/bin/env python3
"""The tool and tools/script must agree, and the tool must print what was recorded.

  cli/tests/agree.py TOOL        (`cargo test` runs it)

All scripts of differential/recorded.bin are taken apart, put together again and run; then some texts, wrong ones among them, are assembled by both.
"""
import importlib.machinery
import importlib.util
import os
import struct
import subprocess
import sys

ROOT = os.path.dirname(os.path.dirname(os.path.dirname(os.path.abspath(__file__))))
SCRIPT = os.path.join(ROOT, "tools/script")
TOOL = sys.argv[1]

TEXTS = [
    b"",
    b"\n\n# nothing\n",
    b"new-block 7\r\nnew-block\r\n",
    b"  push-operand\top 0 value 1  # said\n\nunlink-operation 3",
    b"push-operand 0",
    b"push-operand 0 1 2 3",
    b"replace-some this 0 other 1 uses 2 3 4",
    b"new-operation",
    b"new-operation regions 3 flags 1 operands 5 5 results successors 2",
    b"new-operation flags 1 results 7 results 8",
    b"new-block " + b"0 " * 510,
    b"new-block 4294967295 0007",
    # refused
    b"new-block " + b"0 " * 511,
    b"new-block 4294967296",
    b"new-block 7\npush-operand op -1 value 1",
    b"push-operand 0 1x",
    b"push-operand 0x1 1",
    b"push-operand 0 1.5",
    b"new-operation 0",
    b"new-operation flags 1 2",
    b"new-operation regions 1 1",
    b"new-operation flags x",
    b"new-operation flags +1",
    b"push_operand 0 1",
    b"# one\n\nPush-Operand 0 1\n",
    "new-block \u00b2".encode(),
]


def tools_script():
    loader = importlib.machinery.SourceFileLoader("tools_script", SCRIPT)
    spec = importlib.util.spec_from_loader("tools_script", loader)
    module = importlib.util.module_from_spec(spec)
    sys.dont_write_bytecode = True
    loader.exec_module(module)
    return module


def entries(data):
    at = 0
    while at < len(data):
        parts = []
        for form in ("<H", "<I"):
            (length,) = struct.unpack_from(form, data, at)
            at += struct.calcsize(form)
            parts.append(data[at:at + length])
            at += length
        yield parts


def ran(command, given):
    done = subprocess.run(command, input=given, capture_output=True)
    return done.returncode, done.stdout, done.stderr


def recorded_differ(module, script, expected):
    text = module.disassemble(script)
    taken = ran([TOOL, "disassemble"], script)
    put = ran([TOOL, "assemble"], text.encode())
    return taken != (0, text.encode(), b"") or put != (0, module.assemble(text), b"") or ran([TOOL, "run", "-"], script) != (0, expected, b"")


def main():
    module = tools_script()
    with open(os.path.join(ROOT, "differential/recorded.bin"), "rb") as file:
        scripts = list(entries(file.read()))
    differ = [script.hex() for script, expected in scripts if recorded_differ(module, script, expected)]
    differ += [text.decode() for text in TEXTS if ran([TOOL, "assemble"], text) != ran([sys.executable, SCRIPT, "assemble"], text)]
    for script in differ[:5]:
        print("differs:", script)
    print(f"{len(scripts)} scripts and {len(TEXTS)} texts, {len(differ)} differ")
    sys.exit(1 if differ or not scripts else 0)


main()
