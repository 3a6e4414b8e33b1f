"""A run as a page: `tools/show_journal --html`. `data.py` makes the values that the page has, from one replay of the
journal: `bars.py` the opens, locks and delegations, `lives.py` the clients and their leases, `sequences.py` the
sequence ids of owners. `writing.py` puts them into page.html, with page.css and the scripts."""
