"""The same cases in every run, however slow the machine is."""
from hypothesis import settings

settings.register_profile("repository", database=None, deadline=None, derandomize=True, max_examples=200)
settings.load_profile("repository")
