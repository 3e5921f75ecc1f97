"""Runs `replay` on generated scripts and compares what it prints with the model.

    python3 oracle/compare_replay.py --replay crates/replay/out/replay [--topic images] [--seed 1]

Ends with status 0 where every answer is as the model says. Otherwise it reduces the
first case that differs, prints the script that shows it, and ends with status 1; of a
big case it prints the line that differs only.
"""

from __future__ import annotations

import argparse
import subprocess
import sys
import tempfile
import time
from dataclasses import dataclass
from pathlib import Path
from typing import Iterator, Optional

sys.path.insert(0, str(Path(__file__).resolve().parent.parent))

from oracle import (  # noqa: E402
    suite_graphs,
    suite_images,
    suite_queues,
    suite_samples,
    suite_script,
    suite_share,
)
from oracle.answers import Line, Tested, examples, is_right  # noqa: E402
from oracle.cases import Case, Suite  # noqa: E402
from oracle.script import Replay, expected  # noqa: E402

SUITES: dict[str, Suite] = {
    suite.topic: suite
    for suite in (
        suite_samples.SUITE,
        suite_script.SUITE,
        suite_share.SUITE,
        suite_images.SUITE,
        suite_graphs.SUITE,
        suite_queues.SUITE,
    )
}

#: A batch is run in one process. It has at most so many cases and bytes of script.
BATCH_CASES = 250
BATCH_BYTES = 1_000_000

#: How long a batch may take, a run of the reducing, and all of the reducing, in seconds.
BATCH_SECONDS = 30
RUN_SECONDS = 5
REDUCE_SECONDS = 15

#: A longer line, and a longer script, is printed only in part.
SHOWN = 160
SHOWN_LINES = 40


@dataclass(frozen=True)
class Outcome:
    """What a run printed, and how it ended if it did not end well."""

    stdout: bytes
    trouble: str = ""
    stderr: bytes = b""


@dataclass(frozen=True)
class Difference:
    """The first line in which a run differs from the model; None is the end of the output."""

    line: int
    expected: Optional[Line]
    actual: Optional[bytes]
    outcome: Outcome


def lines_of(text: bytes) -> list[bytes]:
    """The lines, each with its LF; the last one may have none."""
    pieces = text.split(b"\n")
    lines = [piece + b"\n" for piece in pieces[:-1]]
    return lines + [pieces[-1]] if pieces[-1] else lines


class Program:
    """The program that is compared."""

    def __init__(self, path: Path) -> None:
        self.path = path.resolve()

    def run(self, script: bytes, seconds: float) -> Outcome:
        try:
            done = subprocess.run(
                [self.path], input=script, capture_output=True, timeout=seconds, check=False
            )
        except subprocess.TimeoutExpired as late:
            return Outcome(late.stdout or b"", f"still ran after {seconds} seconds")
        trouble = f"ended with status {done.returncode}" if done.returncode else ""
        return Outcome(done.stdout, trouble, done.stderr)

    def difference(
        self, script: bytes, should: Optional[list[Line]] = None, seconds: float = RUN_SECONDS
    ) -> Optional[Difference]:
        """The first difference on a script, from a fresh process, or None."""
        wanted = expected(script) if should is None else should
        outcome = self.run(script, seconds)
        if outcome.stdout == examples(wanted) and not outcome.trouble:
            return None
        got = lines_of(outcome.stdout)
        both = min(len(wanted), len(got))
        line = next((place for place in range(both) if not is_right(wanted[place], got[place])), both)
        if line == len(wanted) == len(got) and not outcome.trouble:
            return None
        return Difference(
            line,
            wanted[line] if line < len(wanted) else None,
            got[line] if line < len(got) else None,
            outcome,
        )


def batches(cases: list[Case]) -> Iterator[list[int]]:
    """The numbers of the cases, in groups that run in one process each."""
    group: list[int] = []
    size = 0
    for number, case in enumerate(cases):
        if case.alone or case.big:
            yield [number]
            continue
        full = len(group) == BATCH_CASES or size + len(case.script) > BATCH_BYTES
        if group and full:
            yield group
            group, size = [], 0
        group.append(number)
        size += len(case.script)
    if group:
        yield group


def differing_case(printed: list[list[Line]], line: int) -> int:
    """Which case of a batch the line of output belongs to."""
    for index, lines in enumerate(printed):
        line -= len(lines)
        if line < 0:
            return index
    return len(printed) - 1


def fewer_lines(program: Program, script: bytes, until: float) -> bytes:
    """The script without the lines that the difference does not need."""
    lines = lines_of(script)
    size = max(1, len(lines) // 2)
    while True:
        start, smaller = 0, False
        while start < len(lines) and time.monotonic() < until:
            shorter = lines[:start] + lines[start + size :]
            if program.difference(b"".join(shorter)) is not None:
                lines, smaller = shorter, True
            else:
                start += size
        if time.monotonic() >= until or (size == 1 and not smaller):
            return b"".join(lines)
        size = max(1, size // 2)


def reduced(program: Program, scripts: list[bytes], index: int) -> tuple[int, Optional[bytes]]:
    """The case that differs and a short script that shows it: of the case alone, or with
    as many of the cases before it as it takes. No script where no fresh run shows it.

    A program that ends badly may lose what it printed before, so that the case is
    another than the one at `index`: then each is tried alone.
    """
    until = time.monotonic() + REDUCE_SECONDS
    before = 0
    while True:
        script = b"".join(scripts[max(0, index - before) : index + 1])
        if program.difference(script) is not None:
            return index, fewer_lines(program, script, until)
        if before >= index:
            break
        before = max(1, before * 2)
    for other, script in enumerate(scripts):
        if time.monotonic() < until and program.difference(script) is not None:
            return other, fewer_lines(program, script, until)
    script = b"".join(scripts)
    return index, script if program.difference(script) is not None else None


def shown(line: Optional[Line]) -> str:
    """A line as plain text, cut if it is long."""
    if line is None:
        return "(the end of the output)"
    tested = isinstance(line, Tested)
    ended = tested or line.endswith(b"\n")
    text = str(line) if tested else line.rstrip(b"\n").decode("latin-1")
    text = "".join(c if " " <= c <= "~" else f"\\x{ord(c):02x}" for c in text)
    if len(text) > SHOWN:
        text = f"{text[:SHOWN]}.. ({len(text)} characters)"
    return text if ended else f"{text} (no line end)"


def print_case(suite: Suite, seed: int, number: int, count: int) -> None:
    """Prints which case differs."""
    print(f"{suite.topic}: not as the oracle says: seed {seed}, case {number + 1} of {count}")


def print_difference(found: Difference) -> None:
    """Prints the line that differs, and how the program ended."""
    print(f"Line {found.line + 1} of the output:")
    print(f"    expected: {shown(found.expected)}")
    print(f"    actual:   {shown(found.actual)}")
    if isinstance(found.expected, Tested) and found.actual is not None:
        print(f"    wrong:    {found.expected.fault(found.actual)}")
    if found.outcome.trouble:
        print(f"The program {found.outcome.trouble}.")
    if found.outcome.stderr:
        print(f"It wrote to standard error: {shown(found.outcome.stderr[:SHOWN])}")


def report(
    program: Program, suite: Suite, seed: int, number: int, count: int, script: Optional[bytes], batch: bytes
) -> None:
    """Prints a difference and how to see it again."""
    print_case(suite, seed, number, count)
    folder = Path(tempfile.mkdtemp(prefix="replay-difference-"))
    path = folder / f"{suite.topic}-{seed}-{number + 1}.script"
    if script is None:
        path.write_bytes(batch)
        print(f"It did not show again. The whole batch of scripts: {path}")
        return
    path.write_bytes(script)
    found = program.difference(script)
    print(f"The script that shows it: {path}")
    lines = lines_of(script)
    for line in lines[:SHOWN_LINES]:
        print(f"    {shown(line)}")
    if len(lines) > SHOWN_LINES:
        print(f"    .. ({len(lines)} lines)")
    if found is None:
        print("It did not show again in the last run.")
        return
    print_difference(found)
    print(f"Run it again: {program.path} < {path}")


def compare(program: Program, suite: Suite, seed: int) -> bool:
    """Compares all cases of a suite, and prints the one line about it or the difference."""
    cases = suite.cases(seed)
    answers = 0
    for group in batches(cases):
        scripts = [cases[number].script for number in group]
        model = Replay()
        printed = [model.feed(script) for script in scripts]
        batch = b"".join(scripts)
        found = program.difference(batch, [line for lines in printed for line in lines], BATCH_SECONDS)
        if found is not None and cases[group[0]].big:
            print_case(suite, seed, group[0], len(cases))
            print_difference(found)
            return False
        if found is not None:
            index, script = reduced(program, scripts, differing_case(printed, found.line))
            report(program, suite, seed, group[index], len(cases), script, batch)
            return False
        answers += sum(len(lines) for lines in printed)
    things = sum(case.things for case in cases)
    print(f"{suite.topic}: {things} {suite.noun}, {answers} answers, all as the oracle says", flush=True)
    return True


def main() -> int:
    parser = argparse.ArgumentParser(description="Compares replay with the model of it.")
    parser.add_argument("--replay", type=Path, required=True, help="the program to compare")
    parser.add_argument("--topic", action="append", choices=sorted(SUITES), help="may be given again")
    parser.add_argument("--seed", type=int, default=1)
    chosen = parser.parse_args()
    if not chosen.replay.is_file():
        print(f"no such program: {chosen.replay}", file=sys.stderr)
        return 2
    program = Program(chosen.replay)
    topics = chosen.topic or list(SUITES)
    return 0 if all(compare(program, SUITES[topic], chosen.seed) for topic in topics) else 1


if __name__ == "__main__":
    sys.exit(main())
