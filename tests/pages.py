"""What the scripts that write a page of docs/ have in common."""
from pathlib import Path

TOP = Path(__file__).resolve().parent.parent


def check_page(script, path, page, of=""):
    """Says whether a file is the page that tests/SCRIPT.py writes. Returns the exit status of its --check."""
    is_same = path.is_file() and path.read_text(encoding="utf-8") == page
    says = f"is what tests/{script}.py writes" if is_same else f"is not what tests/{script}.py writes: run it"
    print(f"{script}: {path.relative_to(TOP)}{f', of {of},' if of else ''} {says}")
    return 0 if is_same else 1
