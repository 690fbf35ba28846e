"""What servers of pages have in common: they are heard on the loopback, by names of their own, and for so many connections at once."""
