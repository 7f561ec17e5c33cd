"""What `gsnap check` answers for texts, and the tokens of a text."""
import re
import subprocess

from program import GSNAP, PATIENCE

# A token, if it stands after white bytes and comments; `min=` and `max=` come before names, and longer symbols before shorter ones.
TOKEN = re.compile(
    r'"[ !#-~]*"|#[A-Za-z_]\w*#|(?:min|max)=|[A-Za-z_]\w*|[0-9]+|==|!=|<=|>=|->|\+=|[()\[\]{},;:.=<>+\-*/%]', re.ASCII
)

SKIPPED = re.compile(r"(?:[ \t\r\n]|//[^\n]*)*")


def tokens(text):
    """Returns the start and the end of each token of a text, up to the first byte that begins none."""
    found, place = [], 0
    while token := TOKEN.match(text, SKIPPED.match(text, place).end()):
        place = token.end()
        found.append(token.span())
    return found


class Checker:
    """Runs `gsnap check` on texts in a file, each text once."""

    def __init__(self, path):
        self.path = path
        self.found = {}

    def refusal(self, text):
        """Returns the number of the text's refusal and its offset, or None if the text is accepted."""
        if text not in self.found:
            self.found[text] = self.asked(text)
        return self.found[text]

    def asked(self, text):
        with open(self.path, "w", encoding="ascii") as it:
            it.write(text)
        ran = subprocess.run([GSNAP, "check", self.path], capture_output=True, timeout=PATIENCE, text=True, check=False)
        if (ran.returncode, ran.stdout, ran.stderr) == (0, "ok\n", ""):
            return None
        refused = re.match(rf"{re.escape(self.path)}: refused ([0-9]+) at ([0-9]+)\n", ran.stderr)
        if ran.returncode != 1 or ran.stdout or not refused:
            raise ValueError(f"status {ran.returncode} and {ran.stdout!r} and {ran.stderr!r} of {text!r}")
        return int(refused[1]), int(refused[2])
