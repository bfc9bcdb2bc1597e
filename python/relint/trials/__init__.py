"""Trials: matches that are really run, with limits, in processes of their own."""
