"""Runs what is built from the portable forms beside what is built from the proof, and compares all that both write."""
