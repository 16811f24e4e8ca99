"""Messages of versions 1.0 to 1.4 and 2.0, said in version 2.1. docs/TRANSLATION.md has what becomes of each field."""
