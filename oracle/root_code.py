#!/usr/bin/env python3
"""oracle/root_code.py [ARCHIVE]: looks at the root as written and as compiled (docs/changes/04-root.md).
In crates/root/src no `*`, `/` or `%` stands outside comments and contracts. In ARCHIVE (target/staticlib/libshuttlemint.a, which
`examples/prove shuttlemint` writes) the root has no multiplication, no division, no call, and one loop with no branch in it. The
loop of three roots at once, in whatever function it was put, has none of these either, and touches no memory.
It needs objdump, one for x86-64; where there is none, on another processor, it says so. Its last line says what it saw; it ends
with status 1 where a rule is broken."""
import re
import subprocess
import sys
from pathlib import Path

sys.dont_write_bytecode = True
import machine

HERE = Path(__file__).resolve().parent
FORBIDDEN = re.compile(r"^(v?f?n?madd|i?mul|v?p?mul|i?div|v?div|v?sqrt|v?fmadd|f(mul|div|sqrt)|call|syscall|int\b)")


def fail(text):
    sys.exit(f"the root's code: FAILED: {text}")


def bare(source):
    """The code without comments, imports of the logic and contracts."""
    source = re.sub(r"//.*", "", source)
    source = re.sub(r"^ghost use .*$", "", source, flags=re.M)
    while found := re.search(r"\b(requires|ensures)\b[^{]*\{", source):
        depth, end = 1, found.end()
        while depth:
            depth += {"{": 1, "}": -1}.get(source[end], 0)
            end += 1
        source = source[: found.start()] + source[end:]
    return source


def check_source():
    for path in sorted((HERE.parent / "crates/root/src").glob("**/*.rt")):
        for line in bare(path.read_text()).splitlines():
            if re.search(r"[*/%]", line):
                fail(f"{path.name}: {line.strip()}")


def functions(archive):
    """Each function's instructions: (address, mnemonic, operands), and a last field for the symbol that a relocation names."""
    run = subprocess.run([*machine.words("objdump"), "-dr", "--no-show-raw-insn", archive], capture_output=True, text=True)
    if run.returncode:
        fail(run.stderr.strip())
    found, name = {}, None
    for line in run.stdout.splitlines():
        if head := re.match(r"[0-9a-f]+ <(.*)>:$", line):
            name = head[1]
            found[name] = []
        elif name and (moved := re.match(r"\s+[0-9a-f]+: R_\S+\s+(\S+)", line)):
            found[name][-1][3] = re.sub(r"^\.text\.|[-+]0x[0-9a-f]+$", "", moved[1])
        elif name and (step := re.match(r"\s+([0-9a-f]+):\s+(\S+)\s*(.*)", line)):
            found[name].append([int(step[1], 16), step[2], step[3], ""])
    return found


def check_three(code):
    """Three roots at once are a part of what calls them. Their loop is known by what a digit costs: a subtraction and two choices for each."""
    held = []
    for name, body in code.items():
        for last, (at, what, operands, to) in enumerate(body):
            if not what.startswith("j") or to or operands.startswith("*"):
                continue
            begin = int(operands.split()[0], 16)
            loop = [step for step in body[:last] if begin <= step[0]]
            kinds = [kind for _, kind, *_ in loop]
            if begin > at or any(kind.startswith(("j", "ret")) for kind in kinds):
                continue
            if kinds.count("sub") == 3 and sum(kind.startswith("cmov") for kind in kinds) == 6:
                for place, kind, told, _ in loop:
                    if FORBIDDEN.match(kind) or "(" in told:
                        fail(f"{name}+{place:#x}, in the loop of three: {kind} {told}")
                held.append((name, len(loop) + 1))
    if not held:
        fail("no loop of three roots without a branch on a digit")
    return ", ".join(f"{name}, {count} instructions a digit" for name, count in held)


def check_root(code, archive):
    if "sm_root" not in code:
        fail(f"{archive} has no sm_root")
    # In the library the face calls root::root, which other functions call too; where none does it is a part of sm_root.
    called = [to for _, what, _, to in code["sm_root"] if what.startswith(("call", "j")) and to]
    name = "root::root" if called == ["root::root"] else "sm_root"
    body = code[name]
    for at, what, operands, to in body:
        if FORBIDDEN.match(what) or (what.startswith("j") and to):
            fail(f"{name}+{at:#x}: {what} {operands}")
    jumps = {at: int(operands.split()[0], 16) for at, what, operands, _ in body if what.startswith("j")}
    after = dict(zip([at for at, *_ in body], [at for at, *_ in body[1:]]))

    def ways(at, what):
        if what.startswith("ret"):
            return []
        onward = [] if what == "jmp" or at not in after else [after[at]]
        return onward + ([jumps[at]] if at in jumps else [])

    leads = {at: ways(at, what) for at, what, *_ in body}

    def reached(begin):
        seen, left = set(), [begin]
        while left:
            at = left.pop()
            if at not in seen:
                seen.add(at)
                left += leads[at]
        return seen

    # a jump of the loop leads to where it is reached from again
    inside = [at for at, to in jumps.items() if at in reached(to)]
    if len(inside) != 1:
        fail(f"{name} has {len(inside)} jumps in loops, at {[hex(at) for at in inside]}, where the digits' loop has one")
    return name, len(body), body[-1][0] + 1


check_source()
if not machine.words("objdump"):
    machine.not_tried("the root's code as compiled (no disassembler for x86-64 here; Debian: binutils-x86-64-linux-gnu)")
    print("the root's code: no multiplication, no division, as written")
    sys.exit()
archive = sys.argv[1] if len(sys.argv) > 1 else str(HERE.parent / "target/staticlib/libshuttlemint.a")
code = functions(archive)
name, count, size = check_root(code, archive)
three = check_three(code)
print(f"the root's code: no multiplication, no division, no call, no branch on a digit ({name}: {count} instructions, about {size} bytes; three at once: {three})")
