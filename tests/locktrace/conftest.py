"""Fixtures that run a program in a folder with the texts of traces.py."""
import pytest

from traces import LOGS, TEXTS


@pytest.fixture
def tracer(tracer):
    tracer.write(**TEXTS, **LOGS)
    return tracer
