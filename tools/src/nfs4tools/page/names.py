"""Names as texts, each of which is made once."""
from functools import cache

from nfs4tools.runs.parties import text_of

name_of = cache(text_of)
