"""Checks without reference answers, and against the answers that the papers print."""
