"""What the laboratory's programs share: the codec, messages, transcripts, files, addresses, TLS."""
