"""How a run was asked for: set once by tests/laboratory/livecard."""

short = False
program = None
