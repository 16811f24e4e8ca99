"""The folder of a recording, and the names of the files in it."""

TRANSCRIPT, DECLARATION, WITNESS = "transcript.ttlv", "declaration.ttlv", "witness.ttlv"
