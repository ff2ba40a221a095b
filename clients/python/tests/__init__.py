"""The package's own tests, which need no server: `python3 -m unittest` or `pytest` in the folder above. `tests/test_clients.py` tries the package on servers."""
