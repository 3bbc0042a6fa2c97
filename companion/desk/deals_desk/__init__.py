"""deals-desk: a page for those who type no commands. What it shows is what `deals` and `deals-tricks` wrote."""
