// Not among the given files; nothing of it is drawn by.
