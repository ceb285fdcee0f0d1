"""The pair rule: how a segment and a triangle are measured."""
import operator


def rule_number(rule):
    """A rule as C takes it. One that does not fit into 32 bits is 0, which is no rule either: cut off, it could be 1 or 2."""
    number = operator.index(rule)
    return number if 0 <= number < 2**32 else 0
