"""What each role may call: one line for each route of a control plane.

An admin may make every call. A caller of another role that names jobs makes calls of these jobs alone, and one that
names a task those of this task alone.
"""

from collections.abc import Mapping

from hourstable.callers import Caller, Role

EVERYBODY: frozenset[Role] | None = None  # also who is not known
ADMINS = frozenset[Role]()
READERS = frozenset({Role.READ})
TASKS = frozenset({Role.TASK})
ASSIGNERS = frozenset({Role.ASSIGNER})
MEMBERS = READERS | TASKS | ASSIGNERS  # of a job

ROLES: Mapping[str, frozenset[Role] | None] = {
    "GET /": EVERYBODY,
    "GET /page.css": EVERYBODY,
    "GET /page.js": EVERYBODY,
    "GET /icon.svg": EVERYBODY,
    "GET /healthz": EVERYBODY,
    "GET /readyz": EVERYBODY,  # what is wrong is told to those who may read everything
    "GET /metrics": READERS,  # of their jobs
    "GET /overview": READERS,  # of their jobs
    "GET /record": READERS,  # of their jobs
    "GET /jobs": READERS | ASSIGNERS,  # their jobs
    "PUT /jobs/{job}": TASKS,  # that the job has this policy; admins create it
    "GET /jobs/{job}": MEMBERS,
    "GET /jobs/{job}/phase": MEMBERS,
    "GET /jobs/{job}/assignment": MEMBERS,
    "GET /jobs/{job}/loads": READERS | ASSIGNERS,
    "GET /jobs/{job}/leases": READERS,
    "GET /jobs/{job}/slices": READERS,
    "GET /jobs/{job}/key": READERS,
    "POST /jobs/{job}/tasks/{task}/life": TASKS,
    "POST /jobs/{job}/grant": TASKS,
    "POST /grants": TASKS,
    "POST /jobs/{job}/free": TASKS,
    "POST /jobs/{job}/loads": TASKS,
    "POST /jobs/{job}/drain": TASKS,
    "POST /jobs/{job}/evict": ADMINS,
    "DELETE /jobs/{job}": ADMINS,
    "POST /jobs/{job}/take": ASSIGNERS,
    "POST /jobs/{job}/renew": ASSIGNERS,
    "POST /jobs/{job}/propose": ASSIGNERS,
    "POST /jobs/{job}/commit": ASSIGNERS,
    "POST /jobs/{job}/hold": ADMINS,  # another plane gives the job away
    "POST /jobs/{job}/look": ADMINS,  # another plane says that the phase is another one
}


def is_public(route: str) -> bool:
    """Whether a route is answered to who is not known."""
    return route in ROLES and ROLES[route] is EVERYBODY


def why_not(caller: Caller, route: str, job: str | None) -> str | None:
    """Returns why a caller may not call a route, of a job if it names one; None if it may. Whose task a call is for
    is looked at with its body."""
    roles = ROLES[route]
    if roles is None or caller.role is Role.ADMIN:
        return None
    if caller.role not in roles:
        return f"it is a call of {' and '.join(sorted(roles | {Role.ADMIN}))}"
    if job is not None and not caller.has(job):
        return "it is of another job"
    return None
