"""ceph fs mdbal: a module of Ceph's manager (docs/MANAGER.md)."""
from .module import Module

__all__ = ['Module']
