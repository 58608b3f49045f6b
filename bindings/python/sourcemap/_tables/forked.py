"""What the process imports that workers are forked from. They never look for garbage among it, and so share its memory."""
import gc

from .._needed import importing

with importing():
    import distributed  # noqa: F401

    from . import job  # noqa: F401

    gc.freeze()
