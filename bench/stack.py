"""The two steps of bench/stack: `public TOP IR` keeps the public functions in the code, `tell TOP ASSEMBLY FRAMES` adds frames up."""

import glob
import re
import sys

# An expression holds at most eight roots, so its reader is at most nine deep.
DEPTH = 9

# A function's name in assembly.
SYMBOL = r'"[^"]+"|[\w.$]+'

# What a function that calls no other may use below its frame.
RED = 128


def public(top):
    """The pairs of a crate and the name of a public function of it."""
    found = set()
    for path in glob.glob(top + "/crates/*/src/*.rt"):
        crate = path.split("/")[-3]
        for name in re.findall(r"^ *pub fn (\w+)", open(path).read(), re.M):
            found.add((crate, name))
    return found


def is_public(names, symbol):
    parts = symbol.split("::")
    return len(parts) > 1 and (parts[0], parts[-1]) in names


def keep(top, path):
    names = public(top)
    for line in open(path):
        m = re.match(r'define internal (.*?@"?([\w:]+)"?\()', line)
        if m and is_public(names, m[2]):
            line = line.replace("define internal ", "define ", 1)
        sys.stdout.write(line)


def calls(path, frames):
    """Which functions each function calls or ends in."""
    out, at = {}, None
    for line in open(path):
        m = re.match(r"(%s):" % SYMBOL, line)
        if m and m[1].strip('"') in frames:
            at = m[1].strip('"')
            out[at] = set()
        m = re.match(r"\s+(?:call|j)\w*\s+(%s)(?:@PLT)?\s*$" % SYMBOL, line)
        if m and at and m[1].strip('"') in frames:
            out[at].add(m[1].strip('"'))
    return out


def deepest(f, frames, out, path):
    """The stack of a call, its return address counted in; a function that calls itself counts once for each depth."""
    if f in path:
        return 0
    below = max([deepest(g, frames, out, path + (f,)) for g in out.get(f, ())], default=0)
    turns = DEPTH if f in out.get(f, ()) else 1
    return (frames[f] + 8) * turns + below


def tell(top, assembly, usage):
    frames = {}
    for line in open(usage):
        name, size, _ = line.rstrip("\n").split("\t")
        frames[name.split(":", 1)[1]] = int(size)
    out = calls(assembly, frames)
    names = public(top)
    rows = [(deepest(f, frames, out, ()) + RED, f) for f in frames if is_public(names, f)]
    for size, f in sorted(rows, key=lambda r: (-r[0], r[1])):
        print(f"{size:8d} {f}")


if sys.argv[1] == "public":
    keep(sys.argv[2], sys.argv[3])
else:
    tell(*sys.argv[2:])
