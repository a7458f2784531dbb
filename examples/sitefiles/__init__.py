"""Plans, books and dumps: reading, writing and showing them. docs/FORMATS.md has every byte."""
