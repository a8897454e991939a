"""A terminal for tests, whose programs may start slowly: on a busy machine, or in an emulator."""

from vt100 import testing


class Terminal(testing.Terminal):
    """A terminal that waits for a minute by default."""

    def __init__(self, *words, timeout=60.0, **options):
        super().__init__(*words, timeout=timeout, **options)
