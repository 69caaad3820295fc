"""A simulator of the trace job, written from docs/RULES.md alone: docs/SIMULATOR.md. Each function names the section of that page that it follows; main.py runs it."""
