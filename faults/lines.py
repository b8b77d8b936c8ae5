"""Plays the command lines, each with each of its requests for memory refused."""
from memory import NO_MEMORY
from stories import LINES


def play_lines(machine, cas):
    """Plays every line. Answers what was not as it should be, a line each."""
    found = []
    for words, wanted in LINES.items():
        found += play_line(machine, [cas, *words], wanted)
    return found


def play_line(machine, words, wanted):
    """A line whose memory is refused prints nothing but the refusal, or comes out."""
    name, found, nth = " ".join(words[1:]), [], 1
    while True:
        run = machine.run(words, 0, nth)
        if not run.was_refused:
            break
        comes_out = run.out == wanted and run.status == 0
        is_refused = run.out == "" and run.err == NO_MEMORY + "\n" and run.status == 1
        if not comes_out and not is_refused:
            found.append(f"{name}: request {nth}: {run.out!r}, {run.err!r}, status {run.status}")
        nth += 1
    if run.out != wanted or run.status != 0:
        found.append(f"{name}: {run.out!r} in place of {wanted!r}")
    return found
