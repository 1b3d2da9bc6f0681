"""A part of a trial program's stored cases: lines of its input, and what they are answered."""


class Part:
    def __init__(self):
        self.input, self.output = [], []

    def say(self, line=""):
        """A line that is answered by itself."""
        self.ask(line, line)

    def ask(self, line, *answers):
        """A line, and the lines of its answer: that it is noted, where none are given."""
        self.input.append(line)
        self.output += answers or ("noted",)
