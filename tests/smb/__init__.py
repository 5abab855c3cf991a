"""What the subjects and bench/ stand on: frames, clients, and the program as it is run and served."""
