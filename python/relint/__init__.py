"""relint: finds regular expressions in Python code that crafted input can make extremely slow, and shows what helps.

The command is `rlt` (`relint.cli`). The judgements are those of the programs `relint` and `relint-ask`, which are proved.
"""
