"""What rows, examples and documents show, on the build with no proofs too."""
from built import NAMED, PROGRAMS, QUICK, Case, Run, each_case, each_of, pasted

program = each_of(PROGRAMS if NAMED else [*PROGRAMS, QUICK])


@each_case
def test_answers_scripts(run: Run, case: Case) -> None:
    """Each row and example, whole: with words, and the usual machine with none."""
    for words in [["script", *case.words]] + ([] if case.words else [[]]):
        assert run(words, case.script) == (0, case.expected, b"")


def test_answers_as_documents_show(run: Run) -> None:
    """Each block of README and docs that is for pasting, on a fresh program."""
    shown = list(pasted())
    assert len(shown) >= 8
    for it in shown:
        assert run(it.words, it.script) == (0, it.replies, b""), it.place
