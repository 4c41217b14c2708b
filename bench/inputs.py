"""Inputs of a measurement, made once each in a folder of their own."""
import os
import subprocess
import sys

GENERATE = os.path.join(os.path.dirname(os.path.abspath(__file__)), "generate.py")


class Inputs:
    def __init__(self, folder):
        self.folder = folder

    def path(self, *words):
        """The path of the input that generate.py writes for these words."""
        path = os.path.join(self.folder, "-".join(word.strip("-") for word in words))
        if not os.path.exists(path):
            with open(path, "wb") as out:
                subprocess.run([sys.executable, GENERATE, *words], stdout=out, check=True)
        return path

    def of(self, name, text):
        """The path of an input of this text."""
        path = os.path.join(self.folder, name)
        with open(path, "w", encoding="ascii") as out:
            out.write(text)
        return path
