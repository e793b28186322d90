"""The laboratory's tools beside the proved programs, in Python's own library alone.

`front` takes the name of a tool behind ./nurrispane and hands the rest to the module of that name
in `commands`. The other modules are what these share: `files` (read and written whole, or not at
all), `programs` (runs the proved ones), `words` and `answers` (the language of docs/LABORATORY.md),
`perline` (tools that print a line after each), `captures` (capture files), `logs` (a log in hand),
`proved` (what the proved programs say of a log), `inputs` (what is known of each input, and why it
isn't selected), `timeline` (what is right and known at any time), `answered` (a card's answer
lines), `shown` (a table of what a card shows over time), `findings` (what is wrong with a card, and why),
`lanes` and `pictures` (lanes over time, and pages of them), `progress` (what a terminal is told),
`faults` (the known faults), `reach` (which of them a log can show at all), `jitter` (how late a
bench is), `sequences` (the bench's set). For a card on a wire: `wires` (packet sockets), `hooks`
(commands to a card), `plays` (a sequence played), `records` (what passed), `courses` (what is right
when, and races), `heartbeats` (frames by themselves), `wirefindings`, `judgements`, `stalls` (when
the bench itself stood still), `wirepictures`, `reports`, `durations` (times on the command line),
`wiresets` (sequences made for a wire).

No rule of the selector stands here: what a line is answered with is asked of the proved
programs, and what a fault does of the wrong copies of the independent program.
"""
