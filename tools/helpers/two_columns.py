"""Rows of two columns for the tools that measure: k, a text of 16 values, and v, a LONG.

A row's number, times an odd number and cut to 32 bits, gives both values, so that other programs can make the same
rows. With DISTINCT values the rows of a segment differ in v.
"""

ODD = 2_654_435_761
FEW = 1000
DISTINCT = 2**32 - 1

SCHEMA = 'schema {"schemaName":"t","dimensionFieldSpecs":[{"name":"k","dataType":"STRING"}],"metricFieldSpecs":[{"name":"v","dataType":"LONG"}]}'


def row(number, values):
    """The row of a number."""
    mixed = number * ODD % 2**32
    return f"k{mixed >> 28}", mixed % values


def messages(rows, values):
    """The messages of the first rows."""
    for number in range(rows):
        k, v = row(number, values)
        yield f'{{"k":"{k}","v":{v}}}'


def consuming(rows, values, indexed):
    """The lines that make a consuming segment of them, with these columns indexed."""
    return [SCHEMA, f"rows make 0 {indexed}", *(f"rows index {message}" for message in messages(rows, values))]
