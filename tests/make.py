"""Makes states and archives by a seeded generator of random numbers."""
import rules


def state(random, qubits, dimension, loss):
    """A state with random fields."""
    pivots = sorted(random.sample(range(qubits), dimension), reverse=True)
    free = ((1 << qubits) - 1) & ~sum(1 << pivot for pivot in pivots)
    rows = tuple(1 << pivot | random.getrandbits(48) & free & ((1 << pivot) - 1) for pivot in pivots)
    turns = tuple(random.choice((0, 2, 4, 6)) for _ in pivots)
    partners = tuple(random.choice((0, 4)) for _ in range(dimension * (dimension - 1) // 2))
    return rules.State(qubits, loss, random.randrange(8), rows, random.getrandbits(48) & free, turns, partners)


def small_state(random, most=4):
    """A state of few qubits; often with little loss, sometimes with as much as there may be."""
    qubits = random.randint(1, most)
    loss = random.choice((0, random.randrange(8), random.randrange(4097), 4096))
    return state(random, qubits, random.randint(0, qubits), loss)


def archive(states):
    return bytes([len(states)]) + b"".join(map(rules.write_state, states))


def truncations(data):
    return [data[:length] for length in range(len(data))]


def bit_changes(data):
    size = 8 * len(data)
    word = int.from_bytes(data, "big")
    return [(word ^ 1 << bit).to_bytes(len(data), "big") for bit in reversed(range(size))]
