"""The transcripts, seen as their clients see them (transcripts/clients_view.py)."""

import pathlib
import sys

from harness import case, holds, ran

TOP = pathlib.Path(__file__).resolve().parent.parent
TRANSCRIPTS = TOP / "transcripts"
LIVES = TOP / "crates/pp_seeds/stdout"


def see(*words):
    """Runs the judge. Answers whether it is content, and what it printed."""
    run = ran([sys.executable, "-B", TRANSCRIPTS / "clients_view.py", *words], text=True)
    return run.returncode == 0, run.stdout + run.stderr


@case
def each_client_of_the_transcripts_is_said_what_is_its_own(world):
    is_content, printed = see(TRANSCRIPTS)
    holds(is_content, f"nothing found in place of\n{printed[:2_000]}")
    return printed.strip().split("\n")[-1]


@case
def each_client_in_the_lives_of_seeds_is_said_what_is_its_own(world):
    is_content, printed = see("--known", TRANSCRIPTS, LIVES)
    holds(is_content, f"nothing found in place of\n{printed[:2_000]}")
    return printed.strip().split("\n")[-1]


@case
def what_an_older_program_said_wrongly_is_found(world):
    is_content, printed = see("--each-found", "--known", TRANSCRIPTS, TRANSCRIPTS / "old_program")
    holds(is_content, f"something found in each log in place of\n{printed[:2_000]}")
    return printed.strip().split("\n")[-1]
