"""kmip_report: what the auditor says of recordings, as a page that people look at, as text, and as JUnit's XML."""
