"""Replays an event log by the proved program and prints after each of its lines how many due moments the
tick of that line served; 0 where the line is refused with 1 to 13."""

from nurrispane import perline

SUMMARY = "how many due moments each line's tick served, by the proved program"
EXAMPLES = ["./nurrispane counts examples/whole-replay.log"]
arguments, run = perline.arguments, perline.by("counts")
