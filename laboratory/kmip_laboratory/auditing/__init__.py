"""The word `audit`: from what was recorded to what came out, with its page, in one go."""
