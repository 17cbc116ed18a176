"""What a policy is: a class with two methods, and the words of `numalab policies --list` about it."""

MOVE, MOVE_ALL, STRICT = 2, 4, 1


class Policy:
    """A placement policy. `modelled_on` names the source of its idea, and `left_out` what of it is not here.

    Parameters of --policy, as in 'hints scan=256', are arguments of the class by their names."""

    modelled_on = "nothing that was published"
    left_out = "not said"

    def start(self, view):
        """Before the first access: areas are mapped, and no page is touched. Policies of areas are set here."""

    def epoch(self, view):
        """After an epoch that another follows: `view` shows what a kernel would see, and has the calls."""
