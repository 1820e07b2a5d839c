"""That docs/certificate.md shows its instances and certificates as they are."""

import pathlib
import subprocess
import sys
import unittest

sys.dont_write_bytecode = True
sys.path.insert(0, str(pathlib.Path(__file__).resolve().parent))
from programs import TOP, proved  # noqa: E402


# The instances of the page, in its order: all but the second have their certificates with them, and the last is shown without the instance,
# which is that of the fifth.
EXAMPLES = ("hub-proof", "three-trucks", "two-groups", "two-or-three", "two-ways", "parted-shipments", "narrowed-ways")


def shown_lines():
    """The lines that stand indented on the page, without what is said of them."""
    page = (TOP / "docs/certificate.md").read_text()
    return [line.split()[0] for line in page.splitlines() if line.startswith("    ") and line.strip()]


@unittest.skipIf(proved() is None, "the proved program of these sources isn't here")
class Page(unittest.TestCase):
    def test_lines(self):
        hub, trio, groups, trucks, ways, parted, narrowed = ((TOP / f"examples/{name}.csv").read_bytes() for name in EXAMPLES)
        answer = self.prints("plan --spans --branches 0", trio)
        self.assertEqual("\n".join(shown_lines()) + "\n", (hub + trio + answer + groups + trucks + ways + parted + self.claim_of(narrowed, ways)).decode())
        for data in (hub, trio + answer, groups, trucks, parted):
            self.assertEqual(self.prints("check", data), b"accepted,optimal\n")
        for data in (ways, narrowed):
            self.assertEqual(self.prints("check", data), b"accepted,unfinished\n")

    def claim_of(self, data, other):
        """The certificate of an example whose instance is that of another one."""
        instance = other[: other.index(b"answer,")]
        self.assertTrue(data.startswith(instance))
        return data.removeprefix(instance)

    def prints(self, words, data):
        return subprocess.run([proved(), *words.split()], input=data, capture_output=True).stdout


if __name__ == "__main__":
    unittest.main()
