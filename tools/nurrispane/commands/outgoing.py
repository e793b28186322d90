"""Replays an event log by the proved program and prints the outgoing codes after each of its lines:
sixteen digits, a code of four bits for each of the ports 0 to 15."""

from nurrispane import perline

SUMMARY = "the sixteen outgoing codes after each line, by the proved program"
EXAMPLES = ["./nurrispane outgoing examples/whole-replay.log"]
arguments, run = perline.arguments, perline.by("outgoing")
