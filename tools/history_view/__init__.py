"""One page of a script and its history, to look at, and the history as JSON for other tools."""
