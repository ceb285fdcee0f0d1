"""What stops the list."""


class Problems(Exception):
    """One or more faults, in words. No list is printed."""

    def __init__(self, *lines):
        super().__init__(*lines)
        self.lines = list(lines)
