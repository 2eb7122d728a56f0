#!/usr/bin/env python3
"""tools/peers/graphql_core.py FILE ROUNDS: the least times, in microseconds, in which graphql-core parses and prints a
query."""
import sys
import time

import graphql
from graphql import parse, print_ast


def least(rounds, work):
    times = []
    for _ in range(rounds):
        begin = time.perf_counter_ns()
        work()
        times.append(time.perf_counter_ns() - begin)
    return min(times) // 1000


def main():
    with open(sys.argv[1], encoding="utf-8") as file:
        source = file.read()
    rounds, document = int(sys.argv[2]), parse(source)
    print(f"graphql-core {graphql.__version__ if hasattr(graphql, '__version__') else graphql.version}")
    print(f"parse {least(rounds, lambda: parse(source))}")
    print(f"format {least(rounds, lambda: print_ast(document))}")


main()
