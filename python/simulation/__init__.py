"""A deterministic simulator of the service: one process, one thread, virtual time, one seed."""
