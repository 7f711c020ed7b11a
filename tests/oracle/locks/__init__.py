"""The locks, one in each file: the code of its calls as the books print it, the names of their
phases, and the changes that `locktrace why` searches. No other Python code has a lock's algorithm;
the oracle, the fuzzer and the tests take it from here.
"""
from locks import mcs, rw_fifo, rw_simple, ticket

LOCKS = {file.LOCK.name: file.LOCK for file in (ticket, mcs, rw_simple, rw_fifo)}
