"""The scripts in examples/ say what stands beside them."""

from support import DONE, TOP, check_words, equal

EXAMPLES = ["conditions", "sessions", "walks"]


def test_examples(folder):
    """Each script in examples/ is answered as the file beside it says, on a new directory at the moment 1000."""
    scripts = sorted((TOP / "examples").glob("*.lines"))
    equal([script.stem for script in scripts], EXAMPLES, "the examples")
    for script in scripts:
        place = folder / script.stem
        place.mkdir()
        answers = script.with_suffix(".answers").read_text().splitlines()
        check_words(["--at", "1000"], place, script.read_bytes(), DONE, answers)
