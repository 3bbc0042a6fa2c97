"""deals-dealer: scripts of the program dealer, as commands of `deals`."""
