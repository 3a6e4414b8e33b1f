"""The files of a relay's options."""
from nfs4tools.trace.pcap import PcapWriter
from nfs4tools.trace.watching import Watcher
from nfs4tools.trace.writer import TraceWriter, Watchers


def watchers_of(trace: str | None, pcap: str | None, by: str, lease: int) -> Watchers:
    """What writes these files, each if it is named; or OSError, whose filename says which can't be written."""
    made: list[Watcher] = []
    if trace is not None:
        made.append(TraceWriter(trace, by, lease))
    if pcap is not None:
        made.append(PcapWriter(pcap))
    return Watchers(*made)
