"""A run as values: the entries of a journal, each with the client, the file and the owners that it is about; what a
selection of them is; and reasons as data. `explain`, `show_journal`, JSON and the library have this one form."""
