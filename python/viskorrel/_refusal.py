"""A refusal, as an exception."""
from ._library import library


class Refusal(Exception):
    """Why a call was refused: a number of the table in include/viskorrel.h.

    number   1 to 14, or 17 to 22
    side     1 for the first blob or the only one, 2 for the second, 0 for neither; of a job's pair 1 for its first number, 2 for its second
    words    the condition, in words
    advice   what to do about it, or None
    element  its place in a batch, or None
    """

    def __init__(self, number, side, blob=None, element=None):
        self.number, self.side, self.element = number, side, element
        self.words = library().viskorrel_words(number).decode()
        advice = library().viskorrel_advice(number, blob, len(blob or b""))
        self.advice = advice.decode() if advice else None
        super().__init__(number, side, blob, element)

    def __str__(self):
        places = [f"refusal {self.number}"]
        if self.element is not None:
            places.insert(0, f"element {self.element}")
        if self.side:
            places.append(f"side {self.side}")
        told = f"{', '.join(places)}: {self.words}"
        return f"{told}; {self.advice}" if self.advice else told
