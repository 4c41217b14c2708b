"""The reference of the crates, made from their sources: `python3 -m apidoc --into build/doc`, or `make doc`."""
