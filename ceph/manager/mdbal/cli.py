"""How a module declares its commands: in one registry for all modules up to Ceph 19, and in one for each module from 20 on."""
from typing import Any, Callable, TypeVar

import mgr_module

Handler = TypeVar('Handler', bound=Callable[..., Any])

if hasattr(mgr_module, 'CLICommandBase'):
    Registry: Any = mgr_module.CLICommandBase.make_registry_subtype('MdbalCLICommand')
else:
    Registry = mgr_module.CLICommand


def command(prefix: str, perm: str) -> Callable[[Handler], Handler]:
    """Declares a command. No argument of one may be named `prefix`."""
    return Registry(prefix, perm=perm)  # type: ignore[no-any-return]
