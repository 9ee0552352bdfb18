"""The team's own reference of the machine of document 01, in exact whole numbers."""
