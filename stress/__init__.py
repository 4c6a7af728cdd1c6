"""A day of random traffic for a gateway that runs: FIX clients and OUCH markets that keep books of their own."""
