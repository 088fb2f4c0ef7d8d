"""Checks, reads and writes netCDF classic files (CDF-1, CDF-2, CDF-5).

The C library that judges and makes a header and tells where the values lie is proved. The Python code around it is only
tested.

    import ncc
    print(ncc.check("ocean.nc"))
    with ncc.open("ocean.nc") as data:
        print(data.variables["temperature"].native()[0])
"""

from . import errors
from ._library import LIMIT, commit
from .appending import append
from .archiving import Row, archive, walk
from .checking import Verdict, check
from .converting import convert
from .dataset import Dataset, open
from .errors import Fault, NccError, SelectionError, Unwritable
from .variable import Variable, native
from .writing import write

__version__ = "0.1.0"
__all__ = [
    "LIMIT",
    "Dataset",
    "Fault",
    "NccError",
    "Row",
    "SelectionError",
    "Unwritable",
    "Variable",
    "Verdict",
    "append",
    "archive",
    "check",
    "commit",
    "convert",
    "errors",
    "native",
    "open",
    "walk",
    "write",
]
