"""How large what is sent may be: `docs/rules/instances.md` and `docs/rules/numbers.md`."""

MOST_COLUMNS = 1_000  # variables, and rows
MOST_VALUES = 100_000  # in the matrix
MOST_GOALS = 8
MOST_DOCUMENT = 4_194_304  # bytes of an instance, of a result, and of the body of a request
GREATEST = 2**127 - 1  # of a numerator and of a denominator
