"""What is stored in the repository of the model: the jobs of tests/jobs and the rows of the crates known_*, each with
its answer made anew."""
