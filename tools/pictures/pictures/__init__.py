"""Pictures of a script, of a trace of its run, and of a WAV file: what `pipegraph-pictures` puts."""
