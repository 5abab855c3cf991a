"""The tests over programs and captures, by subject: `python3 -m tests.run --list`, from the top of the repository."""
