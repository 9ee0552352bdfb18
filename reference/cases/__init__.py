"""Cases worked by hand from the documents; each gives (name, got, expected)."""
