"""What is installed, how the programs of it are proved, and packages of it."""
