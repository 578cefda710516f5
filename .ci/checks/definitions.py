"""Compares docs/definitions.md with the definitions in the crates' specs/.

It names each definition that the clauses of the top call reach. And what a line of it gives with the file that states it is
a definition that is there.
"""
import glob
import re
import sys

DOCUMENT = "docs/definitions.md"
TOP = "crates/ak_top/src/top.rt"
IMPORT = re.compile(r"^(?:ghost )?use Rattle\.(\w+)\.specs\.(\w+)\.\{([^}]*)\}", re.M)
DEFINITION = re.compile(r"^ *(?:pub record|pub data|(?:abbrev|unfoldable)(?: pub)?) (\w+)", re.M)


def imports(text):
    """The names that a file brings in, each with the crate and the file that define it."""
    found = {}
    for crate, file, names in IMPORT.findall(text):
        for name in names.split(","):
            name, _, other = name.strip().partition(" as ")
            found[other or name] = (crate, file, name)
    return found


bodies, brought = {}, {}
for path in glob.glob("crates/*/specs/*.antt"):
    crate, file = path.split("/")[1], path.split("/")[3].removesuffix(".antt")
    with open(path, encoding="utf-8") as it:
        text = re.sub(r"--.*", "", it.read())
    brought[crate, file] = imports(text)
    starts = [*DEFINITION.finditer(text)]
    for start, after in zip(starts, [*starts[1:], None]):
        bodies[crate, file, start[1]] = text[start.end() : after.start() if after else None]

with open(TOP, encoding="utf-8") as it:
    text = it.read()
known = imports(text)
contract = text[text.index("pub fn akl<") :]
waiting = [known[word] for word in re.findall(r"\w+", contract) if known.get(word) in bodies]
reached = set()
while waiting:
    one = waiting.pop()
    if one in reached:
        continue
    reached.add(one)
    crate, file, _ = one
    for word in re.findall(r"\w+", bodies[one]):
        waiting += [other for other in ((crate, file, word), brought[crate, file].get(word)) if other in bodies]

with open(DOCUMENT, encoding="utf-8") as it:
    document = it.read()
named = set(re.findall(r"`(\w+)`", document))
wrong = []
for crate, file, name in sorted(reached):
    if name not in named:
        wrong.append(f"doesn't name {name} of {crate}/specs/{file}.antt, which the clauses of akl reach")

defined = {name for _, _, name in bodies}
for head in re.findall(r"^- ((?:`\w+`(?:, | and )?)+) \((?:`[\w/]+\.antt`|same)", document, re.M):
    wrong += [f"names {name}, which no file of specs/ defines" for name in re.findall(r"`(\w+)`", head) if name not in defined]

print("".join(f"{DOCUMENT} {line}\n" for line in wrong), end="")
sys.exit(1 if wrong else 0)
