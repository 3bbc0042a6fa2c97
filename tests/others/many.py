"""Searches on many machines: shards that are joined, and clusters."""

import harness
import machines
import report
import shards


def joined():
    """Shards one after another, in an array of jobs, and by GNU parallel; searches that are stopped, and resumed."""
    tests = [shards.joined, shards.array, shards.parallel, shards.stopped, shards.resumed, shards.begun]
    yield from report.in_turn([*tests, shards.known, shards.refused, shards.usage], harness.deals)


def clusters():
    """A search over ssh, and by a Slurm."""
    yield from report.in_turn([machines.over_ssh, machines.slurm], harness.deals)
