"""The integrator's desk: what stands around the proved judge. It is run, not proved; the judge's answers stay the program's own."""
