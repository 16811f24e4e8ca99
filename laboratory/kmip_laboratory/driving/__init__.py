"""The parts of kmip_drive: clients that make a key server work, a key server with faults, and what convicts it."""
