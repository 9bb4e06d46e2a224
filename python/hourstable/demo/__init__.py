"""A session cache of three tasks to try Hourstable with: `hourstable-service demo`."""
