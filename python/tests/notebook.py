#!/usr/bin/env python3
"""Runs a notebook's cells without Jupyter, and compares their outputs with those in the file.

usage: python/tests/notebook.py [--write] FILE.ipynb     --write puts what the cells answer into the file

A cell's outputs are what it prints and, if its last statement is an expression, the value: its text, and its table if it has one.
"""
import ast
import contextlib
import io
import json
import sys
from pathlib import Path

sys.path.insert(0, str(Path(__file__).resolve().parents[1]))


def value_of(cell, scope):
    """Runs a cell, and returns the value of its last expression, or None."""
    tree = ast.parse(cell)
    last = tree.body.pop() if tree.body and isinstance(tree.body[-1], ast.Expr) else None
    exec(compile(tree, "cell", "exec"), scope)
    return eval(compile(ast.Expression(last.value), "cell", "eval"), scope) if last else None


def outputs_of(cell, scope, count):
    """Returns the outputs of a cell, as a notebook has them."""
    said = io.StringIO()
    with contextlib.redirect_stdout(said):
        value = value_of(cell, scope)
    outputs = []
    if said.getvalue():
        outputs.append({"name": "stdout", "output_type": "stream", "text": said.getvalue().splitlines(True)})
    if value is not None:
        data = {"text/plain": repr(value).splitlines(True)}
        if hasattr(value, "_repr_html_"):
            data["text/html"] = value._repr_html_().splitlines(True)
        outputs.append({"data": data, "execution_count": count, "metadata": {}, "output_type": "execute_result"})
    return outputs


def run(path):
    """Returns a notebook with the outputs that its cells have now."""
    notebook = json.loads(path.read_text())
    scope = {}
    count = 0
    for cell in notebook["cells"]:
        if cell["cell_type"] == "code":
            count += 1
            cell["execution_count"] = count
            cell["outputs"] = outputs_of("".join(cell["source"]), scope, count)
    return notebook


def main():
    *words, file = sys.argv[1:]
    path = Path(file)
    found = json.dumps(run(path), indent=1, sort_keys=True) + "\n"
    if words == ["--write"]:
        path.write_text(found)
    elif path.read_text() != found:
        print(f"{path}: the outputs differ; --write puts the new ones in")
        return 1
    return 0


if __name__ == "__main__":
    sys.exit(main())
