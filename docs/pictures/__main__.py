"""Draws docs/*.svg from the tables that the code uses, so that a picture cannot say another thing than they do: python3 docs/pictures.
With --check it says which differ from what it would write. Each module tells which tables it reads."""
import sys

sys.dont_write_bytecode = True

from benchmark import benchmark
from image import image
from layers import layers
from mirror import mirror
from svg import ROOT


def main():
    check = sys.argv[1:] == ["--check"]
    status = 0
    for draw in (image, mirror, layers, benchmark):
        path, drawn = ROOT / "docs" / f"{draw.__name__}.svg", draw()
        if not check:
            path.write_text(drawn, encoding="utf-8")
        elif not path.is_file() or path.read_text(encoding="utf-8") != drawn:
            print(f"pictures: docs/{path.name} is not what docs/pictures makes of the tables")
            status = 1
    return status


sys.exit(main())
