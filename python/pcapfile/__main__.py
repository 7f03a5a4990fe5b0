"""Runs the program `pcapfile`, for example `python -m pcapfile info capture.pcap`."""

from ._programs import main

main()
