"""Transcripts without the calls that had no effect on what is judged. docs/SIFTING.md argues why that is sound."""
