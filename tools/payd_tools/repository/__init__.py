"""What works on this repository: it builds, proves and installs the program, and makes parts of the pages."""
