"""The parts of kmip_record: what it records, how it asks, and the files that it writes (docs/FORMATS.md)."""
