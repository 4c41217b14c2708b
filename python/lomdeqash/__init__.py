"""Binary fixed-point numbers as text, with exact rounding, over the library for C.

A format such as ``I1F15`` has its numbers as whole numbers, their *bits*, over two to the power of its fraction length.

>>> from lomdeqash import Format
>>> q15 = Format("I1F15")
>>> q15.read("0.3333")
10922
>>> q15.text(10922)
'0.3333'
>>> q15.value(10922)
Decimal('0.33331298828125')

Each method takes one item, an iterable, or a numpy array, and gives one value, a list, or an array.
"""
from ._errors import Code, FixedError, FixedTypeError
from ._fit import fit
from ._format import Format
from ._options import Errors, Mode, Policy

__all__ = ["Code", "Errors", "FixedError", "FixedTypeError", "Format", "Mode", "Policy", "fit"]
__version__ = "1.1.0"
