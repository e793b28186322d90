"""Replays an event log by the proved program and prints the outgoing words after each of its lines: four
digits, sixteen bits, for each of the ports 0 to 15 in option II; - in option I, which has none."""

from nurrispane import perline

SUMMARY = "the sixteen outgoing words after each line of option II, by the proved program"
EXAMPLES = ["./nurrispane outgoing-words crates/words/stdin"]
arguments, run = perline.arguments, perline.by("words")
