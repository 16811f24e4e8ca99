"""The blocks of the documents in which a command stands: of Markdown those that are indented or fenced, of manuals those between .EX and .EE."""
import re
from pathlib import Path
from typing import Iterator, List, NamedTuple

PROMPT = "$ "
# Which words begin a command where no prompt stands ahead of it.
PROGRAMS = re.compile(r"(kmip_(audit|record|drive|report)|sudo|apt|rt|cd|openssl|curl|parallel|tar|cat|for|python3|git|dumpcap|pykmip-server|"
                      r"scripts/\S+|laboratory/\S+|\.ci/run|/usr/bin/\S+)(?=\s|$)")
FENCE = re.compile(r"```(?P<kind>\w*)$")


class Step(NamedTuple):
    """A command, over as many lines as it needs, and the lines that stand behind it as what it prints."""

    command: str
    printed: List[str]


class Block(NamedTuple):
    """A block of a document: where it stands, and its lines without what indents them."""

    document: str
    line: int
    lines: List[str]

    @property
    def name(self) -> str:
        """Where it stands, and how it begins."""
        return f"{self.document}:{self.line}: {self.lines[0]}"

    @property
    def has_commands(self) -> bool:
        """Whether a command stands in it."""
        return any(line.startswith(PROMPT) for line in self.lines) or bool(PROGRAMS.match(self.lines[0]))

    @property
    def text(self) -> str:
        """The whole block."""
        return "".join(f"{line}\n" for line in self.lines)

    def steps(self) -> List[Step]:
        """Its commands, in their order. Without a prompt each line is one, or all but the last are where a text is among them. A
        block without any has what is printed alone."""
        bare = self.has_commands and not any(line.startswith(PROMPT) for line in self.lines)
        if bare and any("<<" in line for line in self.lines):
            return [Step("\n".join(self.lines[:-1]), []), Step(self.lines[-1], [])]
        steps: List[Step] = []
        for line in self.lines:
            if steps and steps[-1].command.endswith("\\") and not steps[-1].printed:
                steps[-1] = Step(f"{steps[-1].command}\n{line}", [])
            elif bare or line.startswith(PROMPT):
                steps.append(Step(line[0 if bare else len(PROMPT):], []))
            else:
                if not steps:
                    steps.append(Step("", []))
                steps[-1].printed.append(line)
        return [step for step in steps if step.command or step.printed]


def blocks(root: Path) -> List[Block]:
    """All blocks of the README, of docs/ and of the manuals."""
    documents = [root / "README.md", *sorted((root / "docs").glob("*.md")), root / "examples/README.md"]
    found = [block for path in documents for block in _of_markdown(str(path.relative_to(root)), path.read_text("utf-8"))]
    manuals = sorted((root / "packaging/man").glob("*.1"))
    return found + [block for path in manuals for block in _of_manual(path.name, path.read_text("utf-8"))]


def _of_markdown(name: str, text: str) -> Iterator[Block]:
    """Fenced blocks, and indented ones behind an empty line."""
    lines, fence, block = [*text.splitlines(), ""], False, Block(name, 0, [])
    for number, line in enumerate(lines, 1):
        if FENCE.match(line):
            fence = not fence
            if not fence and block.lines:
                yield block
            block = Block(name, number + 1, [])
        elif fence:
            block.lines.append(line)
        elif line.startswith("    ") and (block.lines or not lines[number - 2].strip()):
            block = block if block.lines else Block(name, number, [])
            block.lines.append(line[4:])
        elif block.lines and not line.strip() and lines[number:number + 1] and lines[number].startswith("    "):
            block.lines.append("")
        elif block.lines:
            yield block
            block = Block(name, 0, [])


def _of_manual(name: str, text: str) -> Iterator[Block]:
    """What stands between .EX and .EE, without the marks of troff."""
    for found in re.finditer(r"^\.EX\n(.*?)^\.EE$", text, re.MULTILINE | re.DOTALL):
        told = found[1].replace("\\-", "-").replace("\\e", "\\")
        yield Block(name, text.count("\n", 0, found.start()) + 2, [line for line in told.splitlines() if line])
