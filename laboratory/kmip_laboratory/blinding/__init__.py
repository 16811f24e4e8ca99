"""The word `blind`: the files of one recording, with other bytes in the place of every key's."""
