"""A mote that runs again, guided by its trace: each line of the replay must be that of the trace."""
