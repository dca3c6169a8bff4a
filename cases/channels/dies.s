# Dies in its first tick.
start:  break
