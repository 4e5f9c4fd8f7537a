#!/usr/bin/env python3
"""Holds the TextMate grammar and the manual page against the sources, and prints what is missing. Ends with status 1 where something is."""

import glob
import json
import os
import re
import sys

TOP = os.path.join(os.path.dirname(os.path.abspath(__file__)), "..")


def text(*path):
    with open(os.path.join(TOP, *path), encoding="utf-8") as file:
        return file.read()


def codes(source, name):
    """What the definition `name` spells by `codes "..."`, one for each line that starts with it."""
    return re.findall(rf'^{name}\b.*?= codes "([^"]*)"', source, re.M)


def need(found, what):
    if not found:
        sys.exit(f"no {what} found in the sources: this script has to be adapted")
    return found


TOKENS = text("crates", "spf_text", "specs", "Tokens.antt")
MESSAGE = text("crates", "spf_cli_answers", "specs", "Message.antt")
KEYWORDS = need(codes(TOKENS, "word_spelling"), "keywords")
SIGNS = need(codes(TOKENS, "sign_spelling"), "signs")
RULES = need(codes(text("crates", "spf_check", "specs", "Text.antt"), "rule_name"), "rules")
KIND_NAMES = text("crates", "spf_batch", "specs", "Text.antt")
TRAPS = [name.strip() for name in need(codes(KIND_NAMES, r"kind_name (?:trap\.|\(trap\.)\w+"), "kinds of traps")]
FAULTS = need(codes(MESSAGE, r"fault_name fault\.\w+"), "faults")
COMMANDS = need(re.findall(r'^words_of \(.*?= codes "(\w+)"', text("crates", "spf_cli_words", "specs", "Command.antt"), re.M), "commands")
OPTIONS = need(re.findall(r'codes "(--\w+)"', text("crates", "spf_cli_words", "specs", "Command.antt")), "options")
HOSTS = text("crates", "spf_cli_host_words", "specs", "HostWords.antt")
OPTIONS += need(re.findall(r'codes "(--\w+)"', HOSTS), "options for hosts")
OPTIONS += need(re.findall(r'"\$1" = (--\w+)', text("spf")), "options of the script")
KINDS = need(re.findall(r'^Names text .*?codes "([a-z:]+)"', HOSTS, re.M), "kinds of hosts")
STATUSES = need(re.findall(r"^    \w+ = (\d),", text("crates", "spf_cli_answers", "src", "status.rt"), re.M), "statuses")
MESSAGES = need([piece.strip() for piece in re.findall(r'codes "([^"]*)"', MESSAGE)], "messages")

missing = []


def check(condition, what):
    if not condition:
        missing.append(what)


# ---- the grammar

GRAMMAR = json.loads(text("editors", "vscode", "syntaxes", "spf.tmLanguage.json"))
REPOSITORY = GRAMMAR["repository"]


def rules(rule):
    """The rules with a `match` below a rule, in order."""
    if "include" in rule:
        rule = REPOSITORY[rule["include"][1:]]
    if "match" in rule:
        yield rule
    for below in rule.get("patterns", []):
        yield from rules(below)


RULES_IN_ORDER = [(re.compile(rule["match"]), rule) for rule in rules(GRAMMAR)]


def scope_at(line, place):
    """The rule that colors this place, and where it ends."""
    for pattern, rule in RULES_IN_ORDER:
        match = pattern.match(line, place)
        if match and match.end() > place:
            return rule, match.end()
    return None, place + 1


def is_colored_whole(word, prefixes):
    rule, end = scope_at(word, 0)
    return rule is not None and end == len(word) and rule.get("name", "").startswith(prefixes)


for word in KEYWORDS:
    check(is_colored_whole(word, ("keyword.", "storage.", "variable.language.")), f"grammar: keyword {word}")
for sign in SIGNS:
    check(is_colored_whole(sign, ("keyword.operator.", "punctuation.")), f"grammar: sign {sign}")
for _, rule in RULES_IN_ORDER:
    words = re.fullmatch(r"\\b\(([a-z|]+)\)\\b", rule["match"])
    for word in words[1].split("|") if words else []:
        check(word in KEYWORDS, f"grammar: {word} is no keyword of the language")
for name in ("specfolds", "spec_", "fors", "inputs", "x1"):
    rule, end = scope_at(name + " ", 0)
    check(rule and end == len(name) and rule["name"] == "variable.other.spf", f"grammar: {name} is a name")
for path in sorted(glob.glob(os.path.join(TOP, "examples", "*.spf"))):
    for number, line in enumerate(text(path).splitlines(), 1):
        place = 0
        while place < len(line):
            if line[place].isspace():
                place += 1
                continue
            rule, place = scope_at(line, place)
            check(rule, f"grammar: {os.path.basename(path)} line {number}: {line[place - 1]}")

# ---- the manual page


def plain(page):
    """The text of a manual page, with its requests and escapes taken off and its lines joined."""
    lines = []
    for line in page.splitlines():
        if line.startswith("."):
            _, _, line = line.partition(" ")
            quoted = [one or other for one, other in re.findall(r'"([^"]*)"|(\S+)', line)]
            line = " ".join(quoted)
        lines.append(re.sub(r"\\f[A-Z]", "", line).replace("\\-", "-"))
    return re.sub(r"\s+", " ", " ".join(lines))


PAGE = text("docs", "spf.1")
MANUAL = plain(PAGE)
for command in COMMANDS:
    check(re.search(rf'^\.BI "{command} "', PAGE, re.M), f"manual: command {command}")
for option in sorted(set(OPTIONS)):
    check(option in MANUAL, f"manual: option {option}")
for kind in KINDS:
    check(f"--host {kind}" in MANUAL, f"manual: kind of host {kind}")
for status in STATUSES:
    check(re.search(rf"^\.B {status}$", PAGE, re.M), f"manual: status {status}")
for word in RULES + TRAPS + FAULTS:
    check(re.search(rf"(?<![\w-]){re.escape(word)}(?![\w-])", MANUAL), f"manual: {word}")
for piece in MESSAGES:
    for word in re.findall(r"[a-z]+", piece):
        check(re.search(rf"\b{word}\b", MANUAL), f"manual: {word}, of the message {piece!r}")

for line in missing:
    print(f"missing: {line}")
print(f"{len(KEYWORDS)} keywords, {len(SIGNS)} signs, {len(set(OPTIONS))} options, {len(STATUSES)} statuses, {len(RULES)} rules; {len(missing)} missing")
sys.exit(1 if missing else 0)
