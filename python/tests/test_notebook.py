"""The notebook of examples/ has the outputs that its cells have now."""
import notebook
from conftest import ROOT

NOTEBOOK = ROOT / "examples" / "versions.ipynb"


def test_outputs():
    assert NOTEBOOK.read_text() == notebook.json.dumps(notebook.run(NOTEBOOK), indent=1, sort_keys=True) + "\n"
