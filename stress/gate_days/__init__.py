"""Days of a built gateway over sockets, as the gate plays them: `python3 -m stress.gate_days GATEWAY`."""
