"""The front command: ./nurrispane TOOL .., a module of `commands` for each tool.

A tool with a hyphen is the module with an underline. Such a module has SUMMARY (a line), EXAMPLES (calls that work), `arguments(parser)` and
`run(options)`, which gives the exit status. With LIVE set its calls need interfaces, and work
where these are; with PROGRESS set a terminal is told what is being done where that takes long.
"""

import argparse
import contextlib
import importlib
import os
import pathlib
import signal
import sys
import traceback

from nurrispane import progress
from nurrispane.files import FINE, TROUBLE, NobodyReads, PlainText, Trouble, name_of, reason, write_out

STATUS = "exit status: 0 fine, 1 a finding, 2 trouble; a file is written whole or not at all"


def tools():
    """The tools there are."""
    here = pathlib.Path(__file__).resolve().parent / "commands"
    return sorted(path.stem.replace("_", "-") for path in here.glob("[a-z]*.py"))


def module(tool):
    return importlib.import_module("nurrispane.commands." + tool.replace("-", "_"))


def overview():
    lines = ["usage: ./nurrispane TOOL ..", ""]
    lines += ["  %-15s %s" % (tool, module(tool).SUMMARY) for tool in tools()]
    lines += ["", "./nurrispane TOOL --help says more. " + STATUS]
    return "".join(line + "\n" for line in lines)


def parser_of(tool):
    examples = "\n".join("  " + line for line in module(tool).EXAMPLES)
    parser = argparse.ArgumentParser(
        prog="./nurrispane " + tool,
        description=module(tool).__doc__,
        epilog="for example:\n%s\n\n%s" % (examples, STATUS),
        formatter_class=argparse.RawDescriptionHelpFormatter,
        allow_abbrev=False,
    )
    module(tool).arguments(parser)
    return parser


def main(arguments):
    """The exit status; what is said on standard error is plain text."""
    with contextlib.redirect_stderr(PlainText(sys.stderr)):
        return status_of(arguments)


def status_of(arguments):
    tool = arguments[0] if arguments else None
    try:
        if tool in ("--help", "-h"):
            write_out(overview().encode())
            return FINE
        if tool not in tools():
            sys.stderr.write(overview() if tool is None else "nurrispane: no such tool: %s\n%s" % (tool, overview()))
            return TROUBLE
        options = parser_of(tool).parse_args(arguments[1:])
        with progress.shown(tool) if getattr(module(tool), "PROGRESS", False) else contextlib.nullcontext():
            status = module(tool).run(options)
        write_out(b"")
        return status
    except NobodyReads:
        # ended as any program is that writes to a closed pipe
        signal.signal(signal.SIGPIPE, signal.SIG_DFL)
        os.kill(os.getpid(), signal.SIGPIPE)
    except Trouble as trouble:
        sys.stderr.write("nurrispane %s: %s\n" % (tool, trouble))
    except OSError as error:
        sys.stderr.write("nurrispane %s: %s%s\n" % (tool, "%s: " % name_of(error.filename) if error.filename else "", reason(error)))
    except MemoryError:
        sys.stderr.write(f"nurrispane {tool}: this needs more memory than there is\n")
    except KeyboardInterrupt:
        sys.stderr.write("nurrispane %s: stopped\n" % tool)
    except Exception:
        # Python's own status for this is 1, which would be a finding
        traceback.print_exc()
    return TROUBLE
