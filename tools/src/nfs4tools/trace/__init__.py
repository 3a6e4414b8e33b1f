"""What passes between clients and a server: written, read, and as a capture."""
