"""What some tests need, which are skipped as a whole where it is missing."""

import pytest


def library():
    """Skips a module of tests where there is no shared object; one of another version fails."""
    pytest.importorskip("numpy")
    from tiny_tera.library import NoLibrary, OtherLibrary, load

    try:
        load()
    except OtherLibrary:
        raise
    except NoLibrary as fault:
        pytest.skip(str(fault), allow_module_level=True)
