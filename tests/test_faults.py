"""The faults of tests/faults.py that take seconds."""

import unittest

import faults


def load_tests(loader, standard, pattern):
    """Only these; what `faults` has besides is run by hand."""
    return unittest.TestSuite(loader.loadTestsFromTestCase(one) for one in faults.IN_THE_GATE)
