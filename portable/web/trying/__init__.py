"""Tries the page in headless Chromium: what it shows and what it offers as a download must be what the program writes."""
