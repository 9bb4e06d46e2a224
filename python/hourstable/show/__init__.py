"""What a trace shows: sentences, reports and pictures of the calls of a script or of logs.

`hourstable trace` plays the calls and says of each its reply and what decides it, as values, in the form that
docs/FORMATS.md names. This package decides nothing: it puts those values into words and pictures. It stands on the
standard library alone.
"""
