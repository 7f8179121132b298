"""foreign.py PAIRS PRINTED: reads circuits with the OpenQASM reader of QuTiP 4.

PAIRS is a bundle of pairs, the couplers' text and then the circuit's, PRINTED a bundle of what was printed
for each circuit. Says how many circuits act as what was printed for them, up to a common phase; the exit
status is 1 if one does not. What was refused is passed over.
"""
import sys
import warnings

import numpy
from qutip.qip.operations import gate_sequence_product
from qutip.qip.qasm import read_qasm

# A rotation that is wrong by one unit moves some entry by more than a millionth. Rounding stays far below.
NEAR = 1e-8


def unbundle(path):
    """The texts of a bundle; here all of them end with LF or are empty."""
    with open(path) as bundle:
        return bundle.read().split("--\n")[:-1]


def matrix(text):
    """What the circuit does, as the reader understands it."""
    circuit = read_qasm(text, strmode=True)
    statements = sum(not line.startswith("//") for line in text.splitlines())
    if len(circuit.gates) != statements - 3:
        raise ValueError(f"{len(circuit.gates)} gates in {statements} statements")
    if not circuit.gates:
        return numpy.eye(2 ** circuit.N)
    return gate_sequence_product(circuit.propagators()).full()


def are_alike(drawn, printed):
    """Whether the two differ by a common phase and by nothing else."""
    product = printed.conj().T @ drawn
    phase = product[0, 0]
    return abs(abs(phase) - 1) < NEAR and numpy.abs(product - phase * numpy.eye(len(product))).max() < NEAR


def main():
    warnings.simplefilter("ignore")
    pairs, printed = unbundle(sys.argv[1]), unbundle(sys.argv[2])
    alike, faults, refused = 0, 0, 0
    for i, (circuit, laid) in enumerate(zip(pairs[1::2], printed)):
        if laid.startswith("x\t"):
            refused += 1
        elif are_alike(matrix(circuit), matrix(laid)):
            alike += 1
        else:
            faults += 1
            print(f"circuit {i} does not act as what was printed for it")
    print(f"{alike} of {alike + faults} circuits act as what was printed for them; {refused} were refused")
    sys.exit(1 if faults else 0)


if __name__ == "__main__":
    main()
