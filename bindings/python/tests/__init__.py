"""The binding's tests: `python3 -m unittest` in bindings/python, once the library is built (tools/shared). bindings/python/check runs them,
with numpy and without, and what else there is to check.
"""
