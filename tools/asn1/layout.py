"""The layout of written files, which is that of `rt fmt`: the kit's own formatter gives it."""

from __future__ import annotations

import shutil
import subprocess
import tempfile
from pathlib import Path


class LayoutError(Exception):
    """The formatter is not there, or does not take what was written."""


def formatter() -> str:
    """The kit's `rattle`, which stands beside its `rt`."""
    rt = shutil.which("rt")
    found = Path(rt).resolve().parent / "rattle" if rt else None
    if found is None or not found.exists():
        raise LayoutError("no 'rt' is on the PATH, and its formatter lays the files out")
    return str(found)


def laid_out(files: dict[str, str]) -> dict[str, str]:
    """The files by their paths, as `rt fmt` has them."""
    if not files:
        return {}
    with tempfile.TemporaryDirectory() as folder:
        paths = {path: Path(folder) / path for path in files}
        for path, text in files.items():
            paths[path].parent.mkdir(parents=True, exist_ok=True)
            paths[path].write_text(text, encoding="utf-8")
        words = [formatter(), "fmt", "--write", *(str(path) for path in paths.values())]
        ran = subprocess.run(words, capture_output=True, text=True, check=False)
        if ran.returncode:
            raise LayoutError(ran.stderr.replace(f"{folder}/", "").strip())
        return {path: paths[path].read_text(encoding="utf-8") for path in files}
