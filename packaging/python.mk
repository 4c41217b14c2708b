# The package for Python, which is in python/: its wheel in build/dist, and its tests.

.PHONY: wheel check-python

# A wheel for this platform, with the shared library inside; the same bytes each time.
wheel: library
	packaging/wheel.sh $(VERSION) build/lib/libfixed.so.1 build/dist
	@echo "The wheel is in build/dist."

# The tests and doctests, the types, and the wheel in an environment of its own, with what of these there is here.
check-python: library
	python3 .ci/python.py --built build
	@echo "The package for Python passes what could be run here."
