"""What a client did wrong, what it left behind, and what it never tried, from a server's journal: `tools/judge` prints
it. The model behind it replays the journal; what is here asks the model."""
