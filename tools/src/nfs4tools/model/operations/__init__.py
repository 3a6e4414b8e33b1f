"""The operations that have a rule, each by a function of the server, its arguments and what it works on, which gives
the bytes behind the status, or a Refusal. `nfs4tools.model.server` has the table of them. Sections are those of RFC
7530."""
