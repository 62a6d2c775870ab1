"""The desk: a page in the browser of this computer, which does what the command does, by the same steps."""
