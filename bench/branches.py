#!/usr/bin/env python3
"""Does the machine code of a function branch on the bytes that it reads?  branches.py FILE FUNCTION[!] ...

FILE is an object, library or program of x86-64 that has each FUNCTION under its own name. With '!' the function has to be
refused: a control, which shows that the script tells the two apart. Exit status 0: each is as asked.

How it tells. objdump disassembles the function, and what comes from the bytes is followed through it, on every way:
- a value loaded from memory counts as made of the bytes, wherever it was loaded from (constants beside the code aside); the
  arguments, which are pointers, do not count;
- a result counts if anything that it is made of does, and so do the flags of an instruction that sets them; a register xored
  with itself is zero and does not; where ways meet, what counts on either way counts;
- refused: a conditional jump on flags that count; a load or store at an address that counts; a call, and a jump to another
  function or to a computed address; every instruction and every operand that is not in the lists below (division and string
  instructions, whose time depends on what they work on, are not).
So it may refuse code that does not branch on the bytes (with a counter kept in memory, say), but does not pass code that does."""
import re
import subprocess
import sys

MOVES = set("mov movabs movzx movsx movsxd movd movq movdqa movdqu movaps movups movapd movupd lddqu".split())
# flags are those of this result; of the second kind some may stay as they were
SETS_FLAGS = set("cmp test ptest add sub and or xor neg".split())
CHANGES_FLAGS = set("inc dec shl shr sar rol ror imul".split())
NO_FLAGS = set("""not bswap xchg pxor por pand pandn xorps orps andps andnps xorpd orpd andpd andnpd pcmpeqb pcmpeqw pcmpeqd pcmpeqq
    pmovmskb movmskps movmskpd pshufd pshufb pshuflw pshufhw psrlw psrld psrlq psrldq psllw pslld psllq pslldq punpcklbw punpcklwd
    punpckldq punpcklqdq punpckhbw punpckhwd punpckhdq punpckhqdq packuswb pextrb pextrw pextrd pextrq pminub pmaxub psadbw
    movhlps movlhps shufps shufpd unpckhpd extracti128 extractf128 zeroupper""".split())
ASIDE = {"nop", "endbr64", "ret", "push"}
ZEROES = {"xor", "sub", "pxor", "xorps", "xorpd"}

# each name of a register: the whole register, and how many bytes of it
REGISTERS = {f"{x}mm{n}": (f"xmm{n}", 16) for n in range(16) for x in "xy"}
for n in "ax bx cx dx".split():
    REGISTERS.update({n[0] + "l": ("r" + n, 1), n[0] + "h": ("r" + n, 1)})
for n in "ax bx cx dx si di bp sp".split():
    REGISTERS.update({"r" + n: ("r" + n, 8), "e" + n: ("r" + n, 4), n: ("r" + n, 2)})
for n in "si di bp sp".split():
    REGISTERS[n + "l"] = ("r" + n, 1)
for n in range(8, 16):
    REGISTERS.update({f"r{n}{end}": (f"r{n}", size) for end, size in (("", 8), ("d", 4), ("w", 2), ("b", 1))})


class Refused(Exception):
    pass


def disassembled(file, function):
    """the function's instructions: address, name, operands, whether it names another function"""
    text = subprocess.run(["objdump", "-dr", "--no-show-raw-insn", "-M", "intel", file], capture_output=True, text=True, check=True).stdout
    part = re.search(rf"^[0-9a-f]+ <{re.escape(function)}>:\n(.*?)(?:\n\n|\Z)", text, re.M | re.S)
    if not part:
        sys.exit(f"{file} has no function {function}")
    code = []
    for line in part[1].split("\n"):
        m = re.match(r"\s*([0-9a-f]+):\s+(.*)", line)
        if not m or m[2].startswith("R_X86_64_"):
            code[-1][3] |= bool(m)
            continue
        words = re.sub(r"\b(data16|cs|repz(?= ret)|bnd|notrack)\s+", "", re.sub(r"\s*[#<].*", "", m[2])).split(None, 1)
        code.append([int(m[1], 16), words[0], words[1].strip().split(",") if len(words) > 1 else [], False])
    return code


def registers(operand):
    return {REGISTERS[w][0] for w in re.findall(r"[a-z]+[0-9]*[a-z]?", operand) if w in REGISTERS}


def after(name, ops, elsewhere, counts):
    """what counts after an instruction: registers, and "flags" """
    base = name[1:] if name.startswith("v") else name
    if base in ASIDE:
        return counts
    if base == "call":
        raise Refused("a call")
    if base.startswith("j"):
        if elsewhere or not re.fullmatch(r"[0-9a-f]+", ops[0]):
            raise Refused("a jump to another function or to a computed address")
        if "flags" in counts and base != "jmp" or "cxz" in base:
            raise Refused("a conditional jump that depends on the bytes")
        return counts
    for o in ops:
        if "[" not in o and o not in REGISTERS and not re.fullmatch(r"-?(0x[0-9a-f]+|[0-9]+)", o):
            raise Refused("an operand that is not known")
        if "[" in o and base != "lea" and registers(o) & counts:
            raise Refused("an address that depends on the bytes")
    if base == "imul" and len(ops) == 1:
        raise Refused("an instruction that is not known")
    whole, size = REGISTERS.get(ops[0] if ops else "", (None, 0))
    if base in ZEROES and len(ops) > 1 and ops[-1] == ops[-2] and size >= 4:
        return counts - {whole} - (set() if whole.startswith("xmm") else {"flags"})
    # what goes into the result, the old value of its register among it unless that is overwritten
    moves = base in MOVES or base in ("lea", "pop")
    into = ops[1:] if moves and size >= 4 or "[" in (ops[0] if moves and ops else "") else ops
    made_of = base == "pop" or any(registers(o) & counts or "[" in o and "rip" not in o and base != "lea" for o in into)
    if base.startswith(("set", "cmov")):
        made_of = made_of or "flags" in counts
    elif not (moves or base in SETS_FLAGS or base in CHANGES_FLAGS or base in NO_FLAGS):
        raise Refused("an instruction that is not known")
    result = set(counts)
    if base in SETS_FLAGS:
        result.discard("flags")
    if made_of and base in SETS_FLAGS | CHANGES_FLAGS:
        result.add("flags")
    if whole and base not in ("cmp", "test", "ptest"):
        result = result | {whole} if made_of else result - {whole}
    if base == "xchg" and made_of:
        result |= {r for o in ops for r in registers(o)}
    return result


def refused(code):
    """why the function is refused, or None"""
    place = {c[0]: k for k, c in enumerate(code)}
    before, work = {0: set()}, [0]
    while work:
        k = work.pop()
        a, name, ops, elsewhere = code[k]
        try:
            counts = after(name, ops, elsewhere, before[k])
            nexts = [] if name in ("ret", "jmp") else [k + 1]
            if name.startswith("j"):
                nexts.append(place.get(int(ops[0], 16), len(code)))
            if len(code) in nexts:
                raise Refused("the way leaves the function")
        except Refused as why:
            return f"{a:x}: {name} {','.join(ops)}: {why}"
        for n in nexts:
            if n not in before or not counts <= before[n]:
                before[n] = before.get(n, set()) | counts
                work.append(n)
    return None


def main():
    if len(sys.argv) < 3:
        sys.exit(__doc__)
    wrong = 0
    for word in sys.argv[2:]:
        function, control = word.rstrip("!"), word.endswith("!")
        code = disassembled(sys.argv[1], function)
        why = refused(code)
        jumps = sum(c[1].startswith("j") and c[1] != "jmp" for c in code)
        says = f"refused, at {why}" if why else "no branch on the bytes"
        wrong += bool(why) != control
        print(f"{function}: {len(code)} instructions, {jumps} conditional jumps: {says}{': NOT AS ASKED' if bool(why) != control else ''}")
    sys.exit(wrong > 0)


main()
