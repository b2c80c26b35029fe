"""Not proved: what may be chosen of a translation."""

from dataclasses import dataclass


@dataclass(frozen=True)
class Options:
    """`is_plain`: nothing is shared. `is_forced`: all that is marked is shared, however light, for tests.
    `shares_values`: value methods that call two of their kind in one expression are shared. `shares_apart`: loops whose
    receivers are all different are shared, though their operations don't commute with themselves."""

    is_plain: bool = False
    is_forced: bool = False
    shares_values: bool = True
    shares_apart: bool = True
