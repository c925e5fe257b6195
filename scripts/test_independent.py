"""The program held against the second reading of the definitions in independent.py.

Half of the problems that are generated are changed. Two solutions of each are tried.
"""
import random

import pytest

from independent import JOBS, answer, changed, generated, read_problem, read_solution, verdict

COUNT, BATCH, FIRST_SEED = 3_400, 100, 1956


@pytest.mark.long
@pytest.mark.parametrize("first", range(FIRST_SEED, FIRST_SEED + COUNT, BATCH))
def test_independent(ask, checks, tmp_path, first):
    for seed in range(first, first + BATCH):
        checks(try_one(ask, tmp_path / "problem", random.Random(seed)))


def lines(put, status=0):
    """An answer with these lines on standard output."""
    return status, "".join(f"{line}\n" for line in put).encode(), b""


def try_one(ask, file, rng):
    """One problem by all jobs, and two solutions of it. Answers the number of checks."""
    text = generated(rng)
    text = changed(rng, text) if rng.randrange(2) else text
    try:
        problem = read_problem(text)
    except ValueError as fault:
        for words in JOBS:
            assert ask(words, text) == (3, b"", f"flow: {fault}".encode()), (text, words)
        return len(JOBS)
    solved = ask("solve", text)[1]
    value, written = read_solution(solved, problem[0])
    flows = [flow for _, _, flow in written]
    assert all(flow <= cap * (u != v) for flow, (u, v, cap) in zip(flows, problem[1])), (text, solved)
    assert verdict(problem, value, written, value, False) == (f"optimal {value}", 0), (text, solved)
    for words in JOBS:
        assert ask(words, text) == lines(answer(problem, words, flows)), (text, words)
    file.write_bytes(text)
    for flags in ([], ["--feasible"]):
        first, *others = solved.split(b"\n")
        solution = b"\n".join([first, *rng.sample(others, len(others))])
        solution = changed(rng, solution) if rng.randrange(4) else b"s 0\nf 1 1 0"
        try:
            line, status = verdict(problem, *read_solution(solution, problem[0]), value, bool(flags))
            wanted = lines([line], status)
        except ValueError as fault:
            wanted = 3, b"", f"flow: solution {fault}".encode()
        assert ask(["check", *flags, file], solution) == wanted, (text, solution)
    return len(JOBS) + 3
