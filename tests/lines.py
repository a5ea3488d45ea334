"""Documents in lines of at most 120 characters; a row of a table may be longer.

    python3 tests/lines.py              fails on a longer line of README.md or of a page under docs/, tests/ or bench/
    python3 tests/lines.py --wrap FILE  writes a page anew, its paragraphs and list items in such lines
"""

import re
import sys
import textwrap
from pathlib import Path

ROOT = Path(__file__).resolve().parent.parent
WIDTH = 120


def kept(line):
    """A line that stands as it is: of a table, a heading, a picture or a program."""
    return line.startswith(("|", "#", "    ")) or not line.strip()


def wrapped(text):
    out, block, fence = [], [], False

    def close():
        if block:
            item = re.match(r"(\s*)([-*]|\d+\.)\s+", block[0])
            rest = " " * len(item[0]) if item else ""
            joined = " ".join([block[0].rstrip()] + [x.strip() for x in block[1:]])
            out.extend(textwrap.wrap(joined, WIDTH, subsequent_indent=rest, break_long_words=False, break_on_hyphens=False))
            block.clear()

    for line in text.splitlines():
        if line.startswith("```"):
            close()
            fence = not fence
            out.append(line)
        elif fence or (kept(line) and not (block and line.startswith("    "))):
            close()
            out.append(line)
        else:
            if re.match(r"\s*([-*]|\d+\.)\s", line):
                close()
            block.append(line)
    close()
    return "\n".join(out) + "\n"


def too_long(page):
    for n, line in enumerate(page.read_text(encoding="utf-8").splitlines(), 1):
        if len(line) > WIDTH and not line.startswith("|"):
            yield f"{page.relative_to(ROOT)}:{n}: {len(line)} characters"


def main():
    if sys.argv[1:2] == ["--wrap"]:
        for name in sys.argv[2:]:
            page = Path(name)
            page.write_text(wrapped(page.read_text(encoding="utf-8")), encoding="utf-8")
        return
    pages = [ROOT / "README.md"] + sorted(p for d in ("docs", "tests", "bench") for p in (ROOT / d).glob("*.md"))
    found = [x for p in pages for x in too_long(p)]
    for x in found:
        print(x)
    print(f"lines: {len(pages)} pages, {len(found)} lines too long")
    sys.exit(1 if found else 0)


if __name__ == "__main__":
    main()
