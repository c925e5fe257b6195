"""The manual page and the completions say what the help says, and the shells and man read them."""
import re
import shlex
import subprocess

import pytest

from conftest import ROOT, needs

COMMANDS = ["solve", "cut", "connect", "check"]
OPTION = re.compile(r"^ +(?:(-\w), )?(--[\w-]+)\s+(\S.*)", re.M)
COMMAND = re.compile(r"^  (\w+)  +([A-Z].*)", re.M)
STATUS = re.compile(r"^  \d  \S.*", re.M)
MAN = re.compile(r'^\.\\".*|^\.[A-Z]+|[\\"]', re.M)  # A comment, a request, what stands around words.


def said(*words):
    """What a program prints, standard error too."""
    return subprocess.run(words, stdout=subprocess.PIPE, stderr=subprocess.STDOUT, text=True, timeout=60).stdout


@pytest.fixture
def helps(flow):
    """The help of the program, under no name, and those of its commands."""
    return {name: said(flow, *name.split(), "--help") for name in ["", *COMMANDS]}


def options(text):
    """The options of a help with their meanings, but for those that each command has."""
    return [(long, meaning) for short, long, meaning in OPTION.findall(text) if not short]


def squeezed(text):
    return " ".join(text.split()).replace(" ,", ",")


@pytest.mark.parametrize("name", COMMANDS)
def test_manual_has_the_command(helps, name):
    """Its synopsis, what it prints and its options."""
    manual, text = squeezed(MAN.sub("", (ROOT / "man/flow.1").read_text())), helps[name]
    head, usage = re.match(r"(.*?)^Example.*?^Usage: (.*?)$", text, re.M | re.S).groups()
    flags = " ".join(f"[ {long} ]" for long, _ in options(text))
    usage = usage.replace("[OPTIONS]", flags).replace("[FILE]", "[ FILE ]")
    assert re.sub(r"<(\w+)> \[(\w+)\]", r"\1 [ \2 ]", usage) in manual
    told = " ".join(f"{long} {meaning}" for long, meaning in options(text))
    assert squeezed(f"{name} {head} Options: {told}") in manual


def test_manual_has_the_rest(flow, helps):
    """The options of all, the statuses and the version."""
    manual = squeezed(MAN.sub("", (ROOT / "man/flow.1").read_text()))
    assert f"{squeezed(helps[''].split('Options:')[1].split('flow COMMAND')[0])} FORMAT" in manual
    assert squeezed("EXIT STATUS" + helps[""].split("Exit status:")[1]) in manual
    assert said(flow, "--version").strip() in manual


def zsh(text):
    blocks = re.findall(r"^ +(\w+)\)\n +_arguments (.*?);;", text, re.M | re.S)
    return ([(name, *it) for name, block in blocks for it in re.findall(r"""['"](--.*)\[(.*)\]""", block)],
            re.findall(r"^    '.*\{(-\w),(--\w+)\}'\[(.*)\]'", text, re.M), re.findall(r"'(\w+):([A-Z].*)'", text))


def fish(text):
    found = re.findall(r"""from (\w+)' -l (.*) -d ['"](.*)['"]""", text)
    short = re.findall(r"-s (\w) -l (.*) -d '(.*)'", text)
    return ([(name, f"--{long}", meaning) for name, long, meaning in found],
            [(f"-{letter}", f"--{long}", meaning) for letter, long, meaning in short],
            re.findall(r"-a (\w+) -d '(.*)'", text))


@pytest.mark.parametrize("file, reader", [("_flow", zsh), ("flow.fish", fish)])
def test_completions_tell_the_meanings(helps, file, reader):
    """Of the options of each command, of those of all, and of the commands."""
    told = [(name, *option) for name in COMMANDS for option in options(helps[name])]
    assert reader((ROOT / "completions" / file).read_text()) == (
        told, OPTION.findall(helps[""]), COMMAND.findall(helps[""]))


@pytest.mark.parametrize("line", ["", "help ", "--", *(f"{name} --" for name in COMMANDS)], ids="flow {}".format)
@pytest.mark.parametrize("shell", ["bash", "fish"])
def test_completion(helps, shell, line):
    """What a shell offers at the end of a line: the commands, or the options."""
    needs(shell)
    name, dashes, _ = line.rpartition("--")
    known = [long for _, long, _ in OPTION.findall(helps[name.strip()])]
    offers = known if dashes else COMMANDS + ["help"] * (not line)
    line = f"flow {line}"
    file, words = shlex.quote(str(ROOT / "completions/flow")), line.split(" ")
    if shell == "bash":
        found = said("bash", "--norc", "--noprofile", "-c", f"source {file}.bash; COMP_WORDS=({shlex.join(words)}); "
                     f'COMP_CWORD={len(words) - 1}; _flow; printf "%s\\n" "${{COMPREPLY[@]}}"')
    else:
        found = said("fish", "--no-config", "-c", f"source {file}.fish; complete -C {shlex.quote(line)}")
    assert sorted(offer.split("\t")[0] for offer in found.splitlines()) == sorted(offers)


def test_zsh_reads_its_file():
    assert said(needs("zsh"), "-n", str(ROOT / "completions/_flow")) == ""


def test_man_has_no_warning():
    needs("groff")
    page = shlex.quote(str(ROOT / "man/flow.1"))
    assert said("bash", "-c", f"{needs('man')} --warnings -E UTF-8 -l {page} 2>&1 > /dev/null") == ""


@pytest.mark.parametrize("name", COMMANDS)
def test_statuses(helps, name):
    """Only check has status 1, and each command all others."""
    statuses = [status[2] for status in STATUS.findall(helps[""]) if status[2] != "1" or name == "check"]
    assert [status[2] for status in STATUS.findall(helps[name])] == statuses
