"""What chance chooses in tests: the same for each SEED."""
import os
import random

# What is chosen by chance is chosen by this seed: SEED=1 tests/run makes other choices, and each
# seed the same ones again.
SEED = int(os.environ.get("SEED", "0"))


def seeds(count):
    """So many seeds, which are others with another SEED."""
    return range(1000 * SEED, 1000 * SEED + count)


def chance_of(number):
    """What makes the choices of a test, which has this number."""
    return random.Random(number + 1_000_000 * SEED)
