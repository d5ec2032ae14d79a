#!/usr/bin/env python3
"""Plants single faults in a copy of the Rust.

plant.py FAULTS SOURCE COPY
writes SOURCE's files into COPY with every fault of FAULTS in them. Each is asleep until CUTHRANSI_PLANTED has its number, so one build
serves all. Prints a line for each fault.
"""

import os
import sys

WAKE = """
extern crate std;

/// Whether this fault is awake.
pub fn planted(number: u32) -> bool {
    static AWAKE: std::sync::OnceLock<u32> = std::sync::OnceLock::new();
    let read = || std::env::var("CUTHRANSI_PLANTED").ok().and_then(|word| word.parse().ok());
    *AWAKE.get_or_init(|| read().unwrap_or(0)) == number
}
"""


def read_faults(path):
    faults = []
    with open(path, encoding="utf-8") as lines:
        for line in lines:
            key, _, value = line.strip().partition(": ")
            if key == "fault":
                faults.append({"fault": value})
            elif key in ("file", "within", "old", "new"):
                faults[-1][key] = value
            elif key and not key.startswith("#"):
                sys.exit(f"plant.py: {path}: {line.strip()!r} is no line of a fault")
    return faults


def once(text, part, what):
    if text.count(part) != 1:
        sys.exit(f"plant.py: {what}: {part!r} stands {text.count(part)} times")
    return text.index(part)


def places(source, faults):
    """The faults by file, and by where in it their expression begins and ends."""
    found = {}
    for number, fault in enumerate(faults, 1):
        with open(os.path.join(source, fault["file"]), encoding="utf-8") as file:
            text = file.read()
        within = fault.get("within", fault["old"])
        begin = once(text, within, fault["fault"]) + once(within, fault["old"], fault["fault"])
        place = (begin, begin + len(fault["old"]))
        found.setdefault(fault["file"], {}).setdefault(place, []).append((number, fault["new"]))
    return found


def planted(text, at):
    """From the last place to the first, so that the earlier ones stay where they are."""
    for (begin, end), news in sorted(at.items(), reverse=True):
        tests = "".join(f"if crate::planted({number}) {{ {new} }} else " for number, new in news)
        text = f"{text[:begin]}({tests}{{ {text[begin:end]} }}){text[end:]}"
    return text


def main():
    if len(sys.argv) != 4:
        sys.exit("usage: plant.py FAULTS SOURCE COPY")
    faults, source, copy = read_faults(sys.argv[1]), sys.argv[2], sys.argv[3]
    at = places(source, faults)
    os.makedirs(copy, exist_ok=True)
    for name in sorted(os.listdir(source)):
        with open(os.path.join(source, name), encoding="utf-8") as file:
            text = planted(file.read(), at.get(name, {}))
        if name == "lib.rs":
            text = "#![allow(unused_parens)]\n" + text + WAKE
        with open(os.path.join(copy, name), "w", encoding="utf-8") as file:
            file.write(text)
    for number, fault in enumerate(faults, 1):
        print(number, fault["fault"])


main()
