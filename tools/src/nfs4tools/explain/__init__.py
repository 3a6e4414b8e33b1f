"""Why calls are refused: what conflicts with each, or is wrong with it, by the state that the entries before lead to.

A reason is data (`kinds.py`). `causes.py` and the files `of_*.py` find it by the rules of the operation, `sentences.py`
makes a sentence of it, and `replays.py` goes through a journal with it."""
from nfs4tools.explain.causes import Causes
from nfs4tools.explain.kinds import Again, Kind, Reason
from nfs4tools.explain.replays import Observer, Replay, ExplainedEntry, is_refusal
from nfs4tools.explain.sentences import again_words, repeated_words, sentence

__all__ = [
    "Again",
    "Causes",
    "Kind",
    "Observer",
    "Reason",
    "Replay",
    "ExplainedEntry",
    "again_words",
    "is_refusal",
    "repeated_words",
    "sentence",
]
