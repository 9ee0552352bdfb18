"""Prints the tables of the reference for the plain C: PYTHONPATH=. python3 benchmarks/tables.py >tables.h"""

from reference.old_generator import EXPONENTIALS
from reference.tables import EXPONENTIAL, SINE, exponential_table

OLD_EXPONENTIAL = exponential_table(EXPONENTIALS, EXPONENTIALS)

for name, table in (("quarter", SINE), ("entries", EXPONENTIAL), ("old_entries", OLD_EXPONENTIAL)):
    print(f"static const uint16_t {name}[{len(table)}] = {{{', '.join(map(str, table))}}};")
