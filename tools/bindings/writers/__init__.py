"""What is written: of each language, the lines of each part."""
