"""Whether docs/TUTORIAL.md shows what the built program prints.

    python3 checks/tutorial.py [--program PATH] [--write]

Runs the command blocks of the tutorial one after the other in one shell, whose folder is the root of the repository.
A block of output that stands right behind a command block has to be what that block printed, on both outputs. A
command block without one has to end with status 0. The blocks that build the program are left out: it has to stand
there. With --program another one takes its place. In place of /tmp stands a folder of its own, so that files which are
there, and other runs, change nothing.

With --write the output blocks get what was printed; read the change before it is committed. Prints what differs, and
ends with 1 where something does. It needs bash and jq.
"""

import argparse
import os
import re
import shlex
import subprocess
import sys
import tempfile
from dataclasses import dataclass

ROOT = os.path.join(os.path.dirname(os.path.abspath(__file__)), "..")
TUTORIAL = os.path.join(ROOT, "docs", "TUTORIAL.md")

BLOCK = re.compile(r"^```sh\n(?P<commands>.*?)^```\n(?:\n```\n(?P<output>.*?)^```\n)?", re.MULTILINE | re.DOTALL)

# What a block must not name to be run: it would prove and build.
BUILDS = "rt run"

# The folder that the blocks write to.
WRITES_TO = "/tmp/"

# Between what two blocks print, with the status of the one before.
MARK = "\x1e"


@dataclass
class Block:
    """Some commands, where their output stands in the text, if it does, and what they printed and ended with."""

    line: int
    commands: str
    output: str
    where: tuple
    printed: str = ""
    status: int = 0

    def fault(self):
        if self.output is None:
            return f"ends with {self.status}:\n{self.printed}" if self.status else ""
        return "" if self.printed == self.output else f"prints:\n{self.printed}--- and the tutorial has:\n{self.output}"


def blocks_of(text):
    """The blocks that can be run, in their order."""
    found = [
        Block(text.count("\n", 0, match.start()) + 1, match["commands"], match["output"], match.span("output"))
        for match in BLOCK.finditer(text)
    ]
    return [block for block in found if BUILDS not in block.commands]


def run(blocks, program, folder):
    """Runs all blocks in one shell, so that each finds the names and files of those before it."""
    with_program = f"minerful={shlex.quote(os.path.abspath(program))}\n" if program else ""
    script = "exec 2>&1\n"
    for block in blocks:
        commands = block.commands.replace(WRITES_TO, f"{folder}/")
        script += f"{commands}printf '{MARK}%s{MARK}' $?\n{with_program}"
    done = subprocess.run(["bash", "-c", script], cwd=ROOT, stdin=subprocess.DEVNULL, stdout=subprocess.PIPE, check=True)
    told = done.stdout.decode().replace(f"{folder}/", WRITES_TO).split(MARK)
    for block, printed, status in zip(blocks, told[0::2], told[1::2], strict=False):
        block.printed, block.status = printed, int(status)


def write(text, blocks):
    for block in reversed(blocks):
        if block.output is not None:
            start, end = block.where
            text = text[:start] + block.printed + text[end:]
    with open(TUTORIAL, "w", encoding="utf-8") as file:
        file.write(text)


def main():
    options = argparse.ArgumentParser(description=__doc__.splitlines()[0])
    options.add_argument("--program", help="in place of the one that the tutorial builds")
    options.add_argument("--write", action="store_true", help="put in what was printed")
    given = options.parse_args()
    with open(TUTORIAL, encoding="utf-8") as file:
        text = file.read()
    blocks = blocks_of(text)
    with tempfile.TemporaryDirectory() as folder:
        run(blocks, given.program, folder)
    faults = [(block, fault) for block in blocks if (fault := block.fault())]
    for block, fault in faults:
        print(f"The block at line {block.line} {fault}")
    if given.write:
        write(text, blocks)
    shown = sum(block.output is not None for block in blocks)
    print(f"{len(blocks)} blocks were run, {shown} of them show what they print; {len(faults)} differ")
    return int(bool(faults))


if __name__ == "__main__":
    sys.exit(main())
