"""The commands of documents, run as they stand: what they print is what stands below them."""

import os
import pathlib
import sys
import tempfile

from gate import said_by, shown
from lib import ROOT

# The documents whose commands are run.
DOCUMENTS = ("README.md", "examples/README.md", "clients/README.md", *(f"docs/{name}.md" for name in (
    "TUTORIAL", "OPERATING", "STATES", "DELIVERY", "LIVE", "WATCHING", "QUESTIONS", "COPIES", "FORMATS", "DISK", "FAULTS", "MEANING", "STEPS", "THEOREM", "CLOSURES")))
# Seconds for one command.
SECONDS_OF_A_COMMAND = 90


def commands_in(text):
    """The commands of a document, `$ ..` in its indented blocks, each with the lines below it in its block: what it is to print.
    Where a command ends with `<<END`, the lines up to one `END` are of it."""
    found, is_open, is_text = [], False, False
    for line in text.split("\n"):
        if is_text:
            found[-1] = (f"{found[-1][0]}\n{line.removeprefix('    ')}", [])
            is_text = line != "    END"
        elif line.startswith("    $ "):
            found.append((line[6:], []))
            is_open, is_text = True, line.endswith("<<END")
        elif line.startswith("    ") and is_open:
            found[-1][1].append(line[4:])
        else:
            is_open = False
    return found


def printed_by(command, program, folder, seconds):
    """What a command prints, with a program as `td`, and this Python."""
    python = pathlib.Path(sys.executable).parent
    done = said_by(["sh", "-c", command], seconds, cwd=folder, env={"PATH": f"{program.parent}:{python}:{os.defpath}", "LANG": "C.UTF-8"})
    return "nothing more within its time" if done is None else done[1]


def run_document(tally, file, programs):
    """Runs the commands of a document one after another, with each build of the program as `td` in a folder of its own with the examples
    and clients in it, and compares what they print."""
    commands, wrong = commands_in(file.read_text(encoding="utf-8")), set()
    for program in programs:
        with tempfile.TemporaryDirectory(prefix="td-document-") as folder:
            for name in ("examples", "clients"):
                (pathlib.Path(folder) / name).symlink_to(ROOT / name)
            for number, (command, lines) in enumerate(commands):
                wanted = "".join(f"{line}\n" for line in lines)
                printed = printed_by(command, program, folder, tally.seconds(SECONDS_OF_A_COMMAND))
                if printed != wanted and number not in wrong:
                    wrong.add(number)
                    tally.fail(f"{file.relative_to(ROOT)}: {command}", f"built {program.parent.name}: it prints {shown(printed)}, and not {shown(wanted)}")
    well = len(commands) - len(wrong)
    tally.passed += well
    print(f"check: {file.relative_to(ROOT)}: {well} of {len(commands)} commands as they should be", flush=True)


def run_documents(tally, programs):
    for name in DOCUMENTS:
        run_document(tally, ROOT / name, programs)
