"""The kit's tools for LLVM, with a script in place of the compiler."""

import shlex
from pathlib import Path

from onfi_tools.kit import KIT

TOOLS = KIT / "toolchain"


def make_toolchain(to: Path, script: str, folder: Path) -> None:
    """A copy of the kit's toolchain made of links; the script stands for the compiler, with {compiler} and {folder} filled in."""
    (to / "bin").mkdir(parents=True)
    (to / "lib").symlink_to(TOOLS / "lib")
    for tool in (TOOLS / "bin").iterdir():
        if tool.name != "clang":
            (to / "bin" / tool.name).symlink_to(tool.resolve() if tool.name == "rattle-x64" else tool)
    compiler = to / "bin/clang"
    compiler.write_text(script.format(folder=shlex.quote(str(folder)), compiler=shlex.quote(str(TOOLS / "bin/clang"))))
    compiler.chmod(0o755)
