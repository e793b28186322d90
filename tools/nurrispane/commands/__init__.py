"""A module for each word of ./nurrispane."""
