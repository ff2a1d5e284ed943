"""What is trusted is short and stands alone: the standard library, and no doubles in what it adds up."""

import ast
import io
import sys
import tokenize
from pathlib import Path

EXACT = sorted((Path(__file__).parent.parent / "siting" / "exact").glob("*.py"))
STANDARD = sys.stdlib_module_names
NO_CODE = {tokenize.COMMENT, tokenize.NL, tokenize.NEWLINE, tokenize.INDENT, tokenize.DEDENT}


def code_lines(text: str) -> set[int]:
    """The lines that have code: no blank lines, comments or docstrings."""
    lines: set[int] = set()
    for token in tokenize.generate_tokens(io.StringIO(text).readline):
        if token.type not in NO_CODE and token.type != tokenize.ENDMARKER:
            lines.update(range(token.start[0], token.end[0] + 1))
    for node in ast.walk(ast.parse(text)):
        body = getattr(node, "body", None)
        if isinstance(body, list) and body and isinstance(body[0], ast.Expr):
            value = body[0].value
            if isinstance(value, ast.Constant) and isinstance(value.value, str):
                lines.difference_update(range(body[0].lineno, (body[0].end_lineno or 0) + 1))
    return lines


def test_trusted_modules_have_at_most_400_lines_of_code_and_120_for_the_ground() -> None:
    counts = {path.stem: len(code_lines(path.read_text())) for path in EXACT}
    assert counts.pop("ground") <= 120 and sum(counts.values()) <= 400


def test_trusted_modules_import_the_standard_library_alone() -> None:
    for path in EXACT:
        for node in ast.walk(ast.parse(path.read_text())):
            if isinstance(node, ast.Import):
                assert all(name.name.split(".")[0] in STANDARD for name in node.names)
            if isinstance(node, ast.ImportFrom):
                own = node.level == 1 and (node.module or "") in {path.stem for path in EXACT}
                assert own or (node.level == 0 and (node.module or "").split(".")[0] in STANDARD)


def test_lines_are_counted() -> None:
    assert code_lines(
        '"""Text."""\n\nx = 1  # so\n# no\n\n\ndef f():\n    """It."""\n    return (\n        x\n    )\n'
    ) == {
        3,
        7,
        9,
        10,
        11,
    }
