"""Hourstable as a service: stores, a control plane, an assigner, tasks and clients over the proved
library for C. Which task may serve a key is always a call of hourstable.library."""
