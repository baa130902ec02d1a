"""What tests/refused-memory.py and tests/fuzz.py share: small inputs, runs of a program, and what bytes are made of."""
