"""A stand-in for `hourstable trace` of logs: the machines of the library play them, and are asked what decides their
replies. What it writes has the form of docs/FORMATS.md."""
