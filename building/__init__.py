"""How proved programs are built and found; `./run`, the tests and the benchmark use it."""
