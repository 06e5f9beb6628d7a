"""Random sessions for the kernel's player: how they are made, played, cut down and counted."""
