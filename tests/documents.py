#!/usr/bin/env python3
"""Whether the documents say what the tables of the code have: options, flags, macros, faults, exit statuses, the usage line; whether the files, headings and
crates that they name are there, and the names that PROMISES.md gives for its claims, in rows of 60 words; whether definitions are quoted word for word; and
whether crates.txt names what its crates cite alone, each room standing on those alone that its heading names."""
import glob
import os
import re
import shutil
import subprocess
import sys

top = os.path.dirname(os.path.dirname(os.path.abspath(__file__)))
os.chdir(top)
failed = passed = 0


def read(path):
    with open(path, encoding="utf-8") as file:
        return file.read()


def expect(name, lacking):
    global failed, passed
    lacking = sorted(set(lacking))
    if lacking:
        failed += 1
        print(f"{name}: {', '.join(lacking)}")
    else:
        passed += 1


def words(text):
    return re.findall(r'b"([^"]+)"', text)


def table(path, name):
    """The rows of a const array."""
    return re.search(rf"const {name}: [^=]*= \[(.*?)\];\n", read(path), re.S).group(1)


configuration = read("docs/CONFIGURATION.md")
migration = read("docs/MIGRATION.md")
formats = read("docs/FORMATS.md")
page5 = read("docs/man/syslogr.conf.5").replace("\\&", "")
page8 = read("docs/man/syslogr.8")
architecture = read("docs/ARCHITECTURE.md")

objects = "crates/sg_parse_obj/src/table.rt"
for name in ["SOURCE", "LISTENER", "DESTINATION", "WRITER", "SENDER", "FRAMED", "DISK", "GLOBAL", "WITHOUT_EFFECT"]:
    options = words(table(objects, name))
    expect(f"options {name} in CONFIGURATION.md", [o for o in options if f"`{o}`" not in configuration])
    expect(f"options {name} in MIGRATION.md", [o for o in options if f"`{o}`" not in migration])
    expect(f"options {name} in syslogr.conf.5", [o for o in options if not re.search(rf"(?<![\w-]){o}(?![\w-])", page5)])

parsers = "crates/sg_parse_obj/src/parsers.rt"
for name in ["PARSERS", "CSV", "KV"]:
    options = words(table(parsers, name))
    expect(f"{name} of parsers in CONFIGURATION.md", [o for o in options if f"`{o}(" not in configuration])
    expect(f"{name} of parsers in MIGRATION.md", [o for o in options if f"`{o}" not in migration])
    expect(f"{name} of parsers in syslogr.conf.5", [o for o in options if not re.search(rf"(?<![\w-]){o}(?![\w-])", page5)])

# what is said to be without effect is
ignored = set(words(table(objects, "WITHOUT_EFFECT")))
skipped = re.findall(r'b"([^"]+)", Flat::Skipped', read(objects))
part = migration[migration.index("## Options without effect") : migration.index("## Options that are refused")]
flags = words(re.search(r"Choice::SourceFlag => is_one_of\((.*?)\n        \)", read("crates/sg_parse_expr/src/class.rt"), re.S).group(1))
said = set(re.findall(r"`([a-z0-9-]+)`", part)) - {"file", "network", "syslog"}
expect("said to be without effect, and not in the tables", said - ignored - set(skipped) - set(flags))
expect("without effect, and not said to be", (ignored | set(skipped)) - said)
expect("source flags", [f for f in flags if f"`{f}`" not in configuration or f not in page5])

refused = migration[migration.index("- flow-control and rates:") : migration.index("- source flags:")].replace("`localport` of a destination", "").replace("`flags` of a destination", "")
expect("said to be refused, and taken", set(re.findall(r"`([a-z0-9-]+)`", refused)) & set(words(read(objects))))

macros = words(table("crates/sg_macro/src/macros.rt", "MACROS"))
expect("macros in CONFIGURATION.md", [m for m in macros if f"`${m}`" not in configuration])
expect("macros in syslogr.conf.5", [m for m in macros if not m.startswith(("S_", "R_")) and not re.search(rf"(?<![\w-]){m}(?![\w-])", page5)])

faults = re.findall(r'=> "([^"]+)"', read("crates/sg_report/src/fault.rt"))
expect("faults in FORMATS.md", [f for f in faults if f"`{f}`" not in formats])
expect("faults in syslogr.conf.5", [f for f in faults if f not in " ".join(page5.split())])

code = read("crates/sg_run/src/end.rt") + read("crates/sg_daemon/src/status.rt")
statuses = set(re.findall(r"=> (\d+),", code))
expect("statuses in FORMATS.md", [s for s in statuses if f"\n| {s} | " not in formats])
expect("statuses in syslogr.8", [s for s in statuses if f"\n.It {s}\n" not in page8])
expect("statuses in ARCHITECTURE.md", [s for s in statuses if f"\n| {s} | " not in architecture])

say = read("crates/sg_daemon/src/say.rt")
for line in re.findall(r'b"(usage: .*?|syslogr .*?)\\n"', say):
    expect("what --help and --version say, in FORMATS.md", [] if line in formats.replace("\\|", "|") else [line])

# the words that a hint may name
hinted = set(" ".join(words(read("crates/sg_hint/src/words.rt").replace("\\\n", " "))).split())
for name in ["SOURCE_DRIVERS", "SOURCE", "LISTENER", "DESTINATION", "WRITER", "SENDER", "FRAMED", "DISK", "GLOBAL", "WITHOUT_EFFECT"]:
    expect(f"words {name} in the hints", set(words(table(objects, name))) - hinted)
for name in ["PARSERS", "CSV", "KV"]:
    expect(f"words {name} of parsers in the hints", set(words(table(parsers, name))) - hinted)
for path in ["filters.rt", "rewrites.rt", "form.rt", "class.rt"]:
    expect(f"words of {path} in the hints", {w for w in words(read(f"crates/sg_parse_expr/src/{path}")) if w.islower()} - hinted - {"yes", "on"})

# those that fit a place are those of the parsers
fitting = read("crates/sg_hint/src/fitting.rt").replace("\\\n", " ")
ineffective = set(words(table(objects, "WITHOUT_EFFECT")))


def fits(name):
    return set(re.search(rf'const {name}: &\[u8\] =\s*b"(.*?)";', fitting, re.S).group(1).split())


for name, tables in {
    "FILE_SOURCE": ["SOURCE"],
    "NETWORK_SOURCE": ["SOURCE", "LISTENER"],
    "FILE_DESTINATION": ["DESTINATION", "WRITER"],
    "NETWORK_DESTINATION": ["DESTINATION", "SENDER", "FRAMED"],
    "SYSLOG_DESTINATION": ["DESTINATION", "SENDER"],
    "DISK_BUFFER": ["DISK"],
    "GLOBALS": ["GLOBAL"],
    "DRIVERS": ["SOURCE_DRIVERS", "DESTINATION_DRIVERS"],
    "PARSERS": ["PARSERS"],
    "CSV": ["CSV"],
    "KV": ["KV"],
}.items():
    parsers = name in ("PARSERS", "CSV", "KV")
    taken = {word for each in tables for word in words(table("crates/sg_parse_obj/src/parsers.rt" if parsers else objects, each))}
    expect(f"words of the hints in the place {name}", (taken ^ fits(name)) - ineffective)
expect("source flags in the hints", set(flags) ^ fits("SOURCE_FLAGS"))
expect("the hints name other words", set().union(*map(fits, re.findall(r"^const (\w+): &\[u8\]", fitting, re.M))) - hinted - {"template-escape"})

# what goes in the place of what isn't supported stands in MIGRATION's rows of it, and the ranges in CONFIGURATION's
remedies = read("crates/sg_notes/src/remedies.rt")
rows = re.search(r'const REMEDIES: &\[u8\] =\s*b"(.*?)";', remedies, re.S).group(1).replace('\\"', '"').replace("\\\\", "\\")
cells = [line.strip("| ").split(" | ") for line in migration.replace("\\|", "¦").splitlines() if line.startswith("| ")]
for row in rows.split("\n"):
    names, told = row.split("|", 1)
    held = " ".join(cell[0] for cell in cells if len(cell) == 2 and cell[1] == told)
    expect(f"remedy {told[:30]} in MIGRATION.md", [name for name in names.split() if not re.search(rf"(?<![\w-]){name}(?![\w-])", held)])
for name in ["COMPARED", "VERSION", "QUOTED", "INCLUDED", "LIBRARY"]:
    told = re.search(rf'const {name}: &\[u8\] =\s*b"(.*?)";', remedies).group(1)
    expect(f"remedy {name} in MIGRATION.md", [told for _once in [0] if not any(len(cell) == 2 and cell[1] == told for cell in cells)])
ranges = re.search(r'const RANGES: &\[u8\] =\s*b"(.*?)";', read("crates/sg_notes/src/ranges.rt"), re.S).group(1)
for row in ranges.split("\n"):
    names, told = row.split("|", 1)
    if re.match(r"\d+ to [\d,]+$", told):
        expect(f"range of {names} in CONFIGURATION.md", [name for name in names.split() if not re.search(rf"^\|[^|]*`{name}`[^|]*\| {re.escape(told)}", configuration, re.M)])
limits = re.findall(r'^const \w+: &\[u8\] =\s*b"(.*?)";', read("crates/sg_notes/src/limits.rt"), re.M | re.S)
faults = " ".join(re.findall(r"^\| `(?:too many|too many offers|pattern too large)` .*$", configuration, re.M)) + configuration.split("A regular expression is compiled once")[1][:400]
expect("numbers of the notes on limits in CONFIGURATION.md", [n for told in limits for n in re.findall(r"[\d,]*\d", told) if not re.search(rf"(?<![\d,]){n}(?![\d,]*\d)", faults)])


def headings_of(path):
    """The anchors of a document's headings."""
    found = re.findall(r"^#+ (.+)$", read(path), re.M) if os.path.exists(path) else []
    return {re.sub(r"[^\w -]", "", heading.lower()).replace(" ", "-") for heading in found}


documents = ["README.md"] + sorted(f"docs/{name}" for name in os.listdir("docs") if name.endswith(".md"))
for path in documents:
    text = read(path)
    links = [link for link in re.findall(r"\]\(([^)#]+)\)", text) if "://" not in link]
    expect(f"links of {path}", [link for link in links if not os.path.exists(os.path.join(os.path.dirname(path), link))])
    anchors = re.findall(r"\]\(([^)#]*)#([^)]+)\)", text)
    expect(f"headings that {path} links to", [f"{link}#{anchor}" for link, anchor in anchors if "://" not in link and anchor not in headings_of(os.path.join(os.path.dirname(path), link) if link else path)])
    files = re.findall(r"`((?:sg|test|bench)_[a-z0-9_]+/[A-Za-z0-9_./-]+)`", text)
    expect(f"files of {path}", [file for file in files if not os.path.exists(os.path.join("crates", file))])
    scripts = re.findall(r"`((?:tests|bench|examples|crates|docs)/[A-Za-z0-9_./-]+)`", text)
    expect(f"scripts of {path}", [file for file in scripts if not os.path.exists(file) and not file.endswith("out.log") and "NAME" not in file])


def joined(text):
    """A text without its comments, whose words are parted by one space, and brackets by none."""
    text = re.sub(r"^\s*(--|//).*\n", "", text, flags=re.M)
    text = re.sub(r"\s+", " ", text).strip()
    return re.sub(r" (?=[)}\]])", "", re.sub(r"(?<=[({\[]) ", "", text))


def paragraphs(text):
    return [part for part in re.split(r"\n\s*\n", text) if part.strip()]


def stands_in(quotation, path):
    """Whether one definition of the file has the parts of the quotation between its `..`, in their order."""
    parts = [part.strip() for part in re.split(r"(?<![^\s(])\.\.\)*(?!\S)", joined(quotation))]
    wanted = re.compile(".*?".join(re.escape(part) for part in parts if part), re.S)
    return any(wanted.search(joined(definition)) for definition in paragraphs(read(path)))


# each definition that THEOREM.md quotes stands in a file that its section names above it
for section in re.split(r"^(?=## )", read("docs/THEOREM.md"), flags=re.M):
    named = []
    for part in paragraphs(section):
        if part.startswith("    "):
            places = [path for path in named if stands_in(part, path)]
            expect("quotations of THEOREM.md", [] if places else [joined(part)])
        else:
            named += [f"crates/{path}" for path in re.findall(r"`(sg_[a-z0-9_]+/(?:specs|src)/[A-Za-z0-9_/]+\.(?:antt|rt))`", part)]

# each name of its table of clauses stands in a file of its row
for names, says, files in re.findall(r"^\| (.+) \| (.+) \| ((?:`sg_\w+/[^`|]+`(?:[,;] )?)+) \|$", read("docs/THEOREM.md"), re.M):
    there = set(re.findall(r"\w+", "\n".join(read(f"crates/{file}") for file in re.findall(r"`([^`]+)`", files) if os.path.exists(f"crates/{file}"))))
    expect(f"names of a clause: {names[:60]}", {name for span in re.findall(r"`([^`]+)`", names) for name in re.findall(r"\w+", span)} - there)

# and so do the lines of the headline's record that README.md quotes
headline = "crates/sg_laws/specs/Headline.antt"
table_rows = re.findall(r"^\| [^|]+ \| (.+) \|$", re.search(r"\| phrase \|.*?\n\n", read("README.md"), re.S).group(0), re.M)[1:]
quoted = [text for row in table_rows for text in re.findall(r"`([^`]+)`", row) if " " in text and not text.startswith("run ")]
expect("quotations of README.md", [text for text in quoted if not stands_in(text, headline)])

# a file that is named without its crate is one of a crate that stands beside it, in its row, item or paragraph
for path in ["docs/ARCHITECTURE.md", "docs/EXTENDING.md", "docs/THEOREM.md"]:
    astray = []
    for part in re.split(r"\n\s*\n|\n(?=[|-])", read(path)):
        spans = re.findall(r"`([^`\n]+)`", part)
        beside = {crate for span in spans for crate in re.findall(r"^((?:sg|test|bench)_\w+)", span)}
        for span in spans:
            if re.fullmatch(r"(?:specs/|src/)?\w+\.(?:antt|rt)", span):
                kind = "specs" if span.endswith(".antt") else "src"
                name = span.split("/")[-1]
                astray += [] if any(os.path.exists(f"crates/{crate}/{kind}/{name}") for crate in beside) else [span]
    expect(f"files in the crates beside them, of {path}", astray)

# each name that PROMISES.md gives for a claim is one of a crate that stands beside it
known = {}


def names_of(crate):
    """The words of a crate's code and definitions."""
    if crate not in known:
        parts = [read(path) for kind in ["specs/**/*.antt", "src/**/*.rt"] for path in glob.glob(f"crates/{crate}/{kind}", recursive=True)]
        known[crate] = set(re.findall(r"\w+", "\n".join(parts)))
    return known[crate]


promises = read("docs/PROMISES.md")
section = ""
for line in promises[: promises.index("## What is tested")].splitlines():
    section = line if line.startswith("## ") else section
    row = re.fullmatch(r"\| (.+) \| (.+) \|", line)
    if row and row.group(1) != "claim":
        spans = re.findall(r"`([^`]+)`", row.group(2))
        beside = [span for span in spans if re.fullmatch(r"(?:sg|test)_\w+", span)] + (["sg_daemon"] if "sg_daemon" in section else [])
        files = [span for span in spans if span.endswith(".antt")]
        expect(f"files of a claim: {line[:60]}", [file for file in files if not any(os.path.exists(f"crates/{crate}/{file}") for crate in beside)])
        names = {name for span in spans if span not in beside + files for name in re.findall(r"\w+", span)}
        expect(f"names of a claim: {line[:60]}", names.difference(*map(names_of, beside)))

# a row says its claim in 60 words at most, with the names of its clause
long = [f"{len(words_of)} words: {row[:60]}" for row in promises.splitlines() if row.startswith("| ") for words_of in [row.replace(" | ", " ").strip("| ").split()] if len(words_of) > 60]
expect("long rows of PROMISES.md", long)

below = {line.split(":")[0].split()[0]: line.split("#")[0].split(":")[1].split() for line in read("crates.txt").splitlines() if re.match(r"[a-z]", line)}


def cited_by(crate):
    """The names in front of `::`, `.`, `·` or `;` in the code, definitions and proofs of a crate, which are those of other crates among them."""
    found = set()
    for kind in ["src", "specs", "proofs"]:
        for path in glob.glob(f"crates/{crate}/{kind}/**/*", recursive=True):
            if path.endswith(".rt"):
                text = re.sub(r'//[^\n]*|/\*.*?\*/|r?"(?:[^"\\]|\\.)*"|\'(?:[^\'\\]|\\.)\'', " ", read(path), flags=re.S)
            elif path.endswith(".antt"):
                text = re.sub(r"(?<![^\s(){}.;,@])--[^\n]*", " ", re.sub(r"\{-.*?-\}", " ", read(path), flags=re.S))
            else:
                continue
            found |= set(re.findall(r"(?<!\w)([a-z][a-z0-9_]*)\s*(?:::|[.·;])", text)) | set(re.findall(r"(?:\bRattle[.·]|\.below\.)(\w+)", text))
    return found


# each edge of crates.txt is cited: a crate loads all that it names
expect("edges of crates.txt that are cited nowhere", [f"{crate}: {lower}" for crate in below for cited in [cited_by(crate)] for lower in below[crate] if lower not in cited])

# a room stands on itself, and on the rooms and crates that its heading names; rooms above it in the list alone
room_of, may, room = {}, {}, None
for line in read("crates.txt").splitlines():
    heading = re.match(r"# ([A-Z][A-Za-z ]+): .*It may stand on(?: no other room|: (.+))\.$", line)
    if heading:
        room = heading.group(1)
        may[room] = [name for name in (heading.group(2) or "").split(", ") if name]
        expect(f"rooms and crates that {room} may stand on", [name for name in may[room] if name not in list(may)[:-1] and name not in below])
    elif re.match(r"[a-z]", line):
        room_of[line.split(":")[0].split()[0]] = room
expect("crates in no room", [crate for crate in below if room_of[crate] is None])
edges = [(crate, lower) for crate in below for lower in below[crate] if lower in below and room_of[crate] is not None]
allowed = lambda crate, lower: room_of[lower] in [room_of[crate]] + may[room_of[crate]] or lower in may[room_of[crate]]
expect("edges from a room to one that it may not stand on", [f"{crate} ({room_of[crate]}): {lower} ({room_of[lower]})" for crate, lower in edges if not allowed(crate, lower)])
listed = [name for name in re.findall(r"^### (.+)$", architecture[architecture.index("## The crates") : architecture.index("## Where is ..")], re.M)]
expect("rooms in ARCHITECTURE.md", set(may).symmetric_difference(listed + [name for name in may if name.startswith("Tests")]))

# as many crates as are said are in each room, and on the way of a record and of a token
said_rooms = dict(re.findall(r"^\| ([A-Z][A-Za-z ]+) \| (\d+) \|", architecture, re.M))
expect("crates of a room, counted", [f"{name} {list(room_of.values()).count(name)}" for name in may if said_rooms.get(name) != str(list(room_of.values()).count(name))])
for number, way in re.findall(r"handled by the code of (\d+) crates([^.]*)\.", architecture):
    on_it = set(re.findall(r"`(sg_\w+)`", way))
    expect("crates of a way, counted", [] if len(on_it) == int(number) else [f"{len(on_it)} and not {number}"])

expect("crates in ARCHITECTURE.md", [crate for crate in below if f"`{crate}`" not in architecture])
expect("crates of tests in PROMISES.md", [crate for crate in below if crate.startswith("test_") and f"`{crate}`" not in promises])

# a crate stands on crates above it in the list alone
rows = re.findall(r"^\| `(\w+)` \|", architecture[architecture.index("## The crates") : architecture.index("Tests stand in crates of their own")], re.M)
expect("order of the crates in ARCHITECTURE.md", [f"{lower} above {crate}" for crate in rows for lower in below[crate] if lower in rows[rows.index(crate) :]])

# the tests that a row names see the crates whose code it names


def all_below(crate):
    return {crate}.union(*map(all_below, below.get(crate, [])))


blind = []
for row in architecture[architecture.index("## Where is ..") : architecture.index("## How an exit status comes about")].splitlines():
    cells = row.strip("|").split("|")
    tests = re.findall(r"`((?:sg|test)_\w+)`", cells[-1])
    if len(cells) == 4 and tests:
        blind += [f"{crate} by {', '.join(tests)}" for crate in re.findall(r"`(sg_\w+)", cells[1]) if not any(crate in all_below(test) for test in tests)]
expect("tests of a row in ARCHITECTURE.md", blind)

if shutil.which("mandoc"):
    lint = subprocess.run(["mandoc", "-Tlint", "-Wwarning", "syslogr.8", "syslogr.conf.5"], cwd="docs/man", capture_output=True, text=True)
    expect("mandoc", lint.stdout.splitlines())

print(f"{passed} passed, {failed} failed")
sys.exit(failed != 0)
