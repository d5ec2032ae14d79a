#!/usr/bin/env python3
"""Names, numbers, places, orders and defaults that stand in several files are the same in all of them: the crates' declarations and definitions,
which the prover holds the code to; include/failsafe.h; tools/frames.py; examples/host.c. Definitions that docs/RULES.md cites are there. Prints what differs; exit status 1 where anything does.

  names.py FOLDER     the repository's folder
"""
import importlib.util
import re
import struct
import sys
from pathlib import Path

TOP = Path(sys.argv[1])
sys.dont_write_bytecode = True
differs = []
# Config's one field that is no setting: whether the frame is of kind 11.
KIND = "keeps_raised"


def unlike(these, others):
    """What of these is not so in the others."""
    if isinstance(these, dict):
        return {name: value for name, value in these.items() if others.get(name) != value}
    return [one for one in these if one not in others] if isinstance(these, list) else these


def same(what, first, second):
    if first != second:
        differs.append(f"{what}: {unlike(first, second) or first} and {unlike(second, first) or second}")


def text(name):
    return (TOP / name).read_text(encoding="utf-8")


def cases(rust):
    """The cases of an enum of crates/types, in declared order."""
    body = re.search(r"pub enum %s \{(.*?)\n\}" % rust, text("crates/types/src/lib.rt"), re.S).group(1)
    return re.findall(r"^\s+(\w+),", body, re.M)


def c_name(name):
    return re.sub(r"(?<=[a-z])(?=[A-Z])", "_", name).upper()


def enumerators(tag):
    """An enum of the header: its names without their prefix, and numbers."""
    body = re.search(r"enum failsafe_%s \{(.*?)\};" % tag, text("include/failsafe.h"), re.S).group(1)
    prefix = f"FAILSAFE_{tag.upper()}_"
    return {name.removeprefix(prefix): int(number) for name, number in re.findall(r"(\w+) = (\d+)", body)}


def tool():
    spec = importlib.util.spec_from_file_location("frames", TOP / "tools/frames.py")
    module = importlib.util.module_from_spec(spec)
    spec.loader.exec_module(module)
    return module


def defaults():
    """The default of each setting, in the order of the definition."""
    body = text("crates/config/specs/Default.antt").split("default_config =", 1)[1].split("}", 1)[0]
    found = []
    for name, value in re.findall(r"«?(\w+)»? = ([^;]+);", body):
        if name == KIND:
            continue
        decimal = re.fullmatch(r"decimal (\d+) (\d+)", value)
        if decimal:
            found.append((name, int(decimal[1]) / int(decimal[2])))
        else:
            found.append((name, {"true": True, "false": False}.get(value, value if not value.isdigit() else int(value))))
    return found


def definition(crate, name, arguments):
    """The text of a definition of a crate's specs, up to the next empty line; None where it is not there."""
    for path in sorted((TOP / "crates" / crate / "specs").glob("*.antt")):
        found = re.search(r"^%s %s =(.*?)(?:\n\n|\Z)" % (name, arguments), path.read_text(encoding="utf-8"), re.S | re.M)
        if found:
            return found.group(1)
    return None


def reading(reader):
    """The text of a reader's definition. One that is another's at a reader of values, as option_at u8_at, is the other's text with that reader in it."""
    crates = ("options", "frame_telemetry")
    body = next(filter(None, (definition(crate, reader, "s i") for crate in crates)), "")
    of = re.fullmatch(r"\s*(\w+_at) (\w+_at) s i\s*", body)
    if of is None:
        return body
    whole = next(filter(None, (definition(crate, of[1], "value s i") for crate in crates)), "")
    return re.sub(r"\bvalue s ", f"{of[2]} s ", whole)


def within(reader):
    """What a reading is made of: each part's name, its reader and its distance from the reading's first byte. Empty for a plain number."""
    body = reading(reader) if "s (i + " in reading(reader) else ""
    parts = [("", "flag_at", 0)] if "cond (flag_at s i)" in body else []
    fields = re.findall(r"«?(\w+)»? = (\w+_at) s (?:i|\(i \+ (\d+)\))(?=[ ;])", body)
    if fields:
        return parts + [(name, kind, int(on or 0)) for name, kind, on in fields]
    values = re.findall(r"\((\w+_at) s \(i \+ (\d+)\)\)", body)
    names = ["value"] if len(values) == 1 else ["t_ms", "value"]
    return parts + [(name, kind, int(on)) for name, (kind, on) in zip(names, values)]


AXES = {"n": "north", "e": "east", "d": "down"}


def places(name, reader, at):
    """The places of a reading and of its parts, by name."""
    found = {}
    for part, kind, on in within(reader) or [("", None, 0)]:
        whole = f"{name}_{AXES.get(part, part)}" if part else name
        found.update({whole: at + on} if kind in (None, "flag_at") and not part else places(whole, kind, at + on))
    return found


def fields_at(body):
    """The fields of a frame's definition: name, reader, place."""
    return [(name, kind, int(at)) for name, kind, at in re.findall(r"«?(\w+)»? = (\w+_at) s (\d+)", body)]


def frame_places(body, prefix=""):
    found = {}
    for name, kind, at in fields_at(body):
        if kind == "slots_at":
            name, at = "active", int(re.search(r"slot_at s \((\d+) \+ 3 \* n\)", text("crates/frame_decision/specs/Slots.antt")).group(1))
        found.update(places(prefix + name, kind, at))
    return found


def widened(found):
    """The places of kind 9, from those of kind 3: eleven instants have four bytes more."""
    instants = [at for name, at in found.items() if name == "now_ms" or name.endswith("_t_ms") or name == "gcs_heartbeat_ms_value"]
    same("instants of telemetry", len(instants), 11)
    return {name: at + 4 * sum(before < at for before in instants) for name, at in found.items()}


def header_places(tag):
    """The places that the header has for a frame, by name."""
    body = re.search(r"enum failsafe_%s_place \{(.*?)\n\};" % tag, text("include/failsafe.h"), re.S).group(1)
    return {name.lower(): int(at) for name, at in re.findall(r"FAILSAFE_%s_(\w+) = (\d+)" % tag.upper(), body)}


def setting_types():
    """Each setting's type, as the header's comments have it."""
    return dict((name.lower(), kind) for name, kind in re.findall(r"FAILSAFE_CONFIG_(\w+) = \d+,? +/\* (u8|u32|f32|bool), ", text("include/failsafe.h")))


def initialiser(name):
    """The bytes of an initialiser of the header, and what its comments say."""
    body = re.search(r"#define %s \\\n    \{(.*?)\n    \}" % name, text("include/failsafe.h"), re.S).group(1)
    told = re.findall(r"/\* (\w+) (\S+) \*/", body)
    return bytes(int(byte, 16) for byte in re.findall(r"0x([0-9a-f]{2})", re.sub(r"/\*.*?\*/", "", body))), told


def packed(kind, value):
    """A setting's bytes."""
    return {"u8": lambda: bytes([value]), "bool": lambda: bytes([value]), "u32": lambda: struct.pack("<I", value),
            "f32": lambda: struct.pack("<f", value)}[kind]()


def refusals():
    """Each error's number, by the definitions."""
    numbers = re.findall(r"fence_error_number FenceError\.(\w+) = (\d+)", text("crates/corners/specs/Acceptance.antt"))
    numbers += re.findall(r"config_error_number ConfigError\.(\w+) = (\d+)", text("crates/config/specs/Config.antt"))
    return {name: int(number) for name, number in numbers}


def json_like(value):
    return str(value).lower() if isinstance(value, bool) else f"{value:g}" if isinstance(value, float) else str(value)


frames = tool()
for tag, rust, told in [("action", "Action", frames.ACTIONS), ("reason", "Reason", frames.REASONS),
                        ("fix", "GpsFix", frames.FIXES), ("landed", "LandedState", frames.LANDED)]:
    declared = cases(rust)
    same(f"{rust}, crates/types and tools/frames.py", declared, told)
    same(f"{rust}, crates/types and the header", {c_name(name): i for i, name in enumerate(declared)}, enumerators(tag))

for name, told in [("actions", frames.ACTIONS), ("reasons", frames.REASONS)]:
    listed = re.search(r"\*const %s\[\] = \{(.*?)\}" % name, text("examples/host.c"), re.S).group(1)
    same(f"{name}, tools/frames.py and examples/host.c", told, re.findall(r'"(\w+)"', listed))

errors, header = refusals(), enumerators("refusal")
same("refusals of fence and configuration in the header", {c_name(name): n for name, n in errors.items()},
     {name: n for name, n in header.items() if n in errors.values()})
same("refusals of fence and configuration in tools/frames.py", errors,
     {name: n for n, name in frames.REFUSALS.items() if n in errors.values()})
same("numbers of refusals, header and tools/frames.py (36 and 37 are failsafe_whole_energy's, which no frame answers)",
     sorted(set(header.values()) - {0, 36, 37}), sorted(frames.REFUSALS))
same("kinds, header and tools/frames.py", sorted(enumerators("kind").values()), sorted(frames.KINDS))

fields = re.search(r"pub struct Config \{(.*?)\n\}", text("crates/config/src/lib.rt"), re.S).group(1)
types = {"bool": "flag"}
declared = [(name, types.get(kind, kind)) for name, kind in re.findall(r"pub (\w+): (\w+)", fields) if name != KIND]
same("settings, crates/config and tools/frames.py", declared, [(name, kind) for name, kind, _ in frames.CONFIG_FIELDS])
same("defaults, crates/config and tools/frames.py", defaults(), [(name, value) for name, _, value in frames.CONFIG_FIELDS])

config = fields_at(definition("frame_config", "config_at", "s keeps"))
same("places of settings, crates/frame_config and the header", {name: at for name, _, at in config}, header_places("config"))
same("types of settings, crates/config and the header", [(name, {"flag": "bool"}.get(kind, kind)) for name, kind in declared], list(setting_types().items()))
telemetry = frame_places(definition("frame_telemetry", "telemetry_at", "s"))
same("places of telemetry, crates/frame_telemetry and the header", telemetry, header_places("telemetry"))
same("places of telemetry of kind 9, those of kind 3 and the header", widened(telemetry), header_places("wide_telemetry"))
decision = frame_places(definition("frame_decision", "decision_at", "s"))
decision.update(frame_places(definition("frame_decision", "estimate_at", "s"), "energy_"))
same("places of a Decision, crates/frame_decision and the header", decision, header_places("decision"))

bytes_, told = initialiser("FAILSAFE_DEFAULT_CONFIG")
kinds = setting_types()
same("the header's default configuration", (struct.pack("<HH", 244, 1) + b"".join(packed(kinds[name], value) for name, value in defaults())).hex(), bytes_.hex())
same("the header's default configuration, in words", [(name, json_like(value)) for name, value in defaults()], told)
same("the header's default fence and tools/frames.py", frames.fence_frame({}).hex(), initialiser("FAILSAFE_DEFAULT_FENCE")[0].hex())

CITED = r"((?:`\w+`,? ?)+): (\w+/specs/\w+\.antt)"
cited = re.findall(CITED, text("docs/RULES.md"))
for names_, file in cited:
    for name in re.findall(r"`(\w+)`", names_):
        if not re.search(r"^ *(?:\w+ )*pub (?:record |data )?%s\b" % name, text(f"crates/{file}"), re.M):
            differs.append(f"docs/RULES.md: there is no {name} in crates/{file}")
code = "\n".join(path.read_text(encoding="utf-8") for path in sorted(TOP.glob("crates/*/src/*.rt")))
for name in re.findall(r"`(?:\w+::)?(\w+)`", "\n".join(line for line in text("docs/TOUR.md").splitlines() if re.match(r"\| \d+ \|", line))):
    if not re.search(r"\b(?:fn|struct|enum) %s\b" % name, code):
        differs.append(f"docs/TOUR.md: there is no {name} in the crates")
# A definition that is cited, as fresh_remaining_wh, is no setting.
for name in re.findall(r"`(\w+_(?:ms|m|wh|pct|cell|rtl|max|wind|required))`", re.sub(CITED, "", text("docs/RULES.md"))):
    if name not in dict(declared):
        differs.append(f"docs/RULES.md: there is no setting {name}")

for line in differs:
    print("differs:", line)
print(f"{len(declared)} settings with their places and defaults, {len(header_places('telemetry')) + len(decision)} places of telemetry and Decision, {len(header)} refusals, {sum(map(len, (frames.ACTIONS, frames.REASONS, frames.FIXES, frames.LANDED)))} names of actions, reasons, fixes and landed states, {len(cited)} places of docs/RULES.md")
sys.exit(1 if differs else 0)
