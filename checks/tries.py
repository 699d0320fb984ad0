"""What a check has tried: a line for each thing, and what was wanted and told where it was not as it should be."""


def leave_out(check, why, what):
    """One line for what a check leaves out. All checks have this form for it, by which `test` collects these lines for its end."""
    print(f"{check}: left out, since {why}: {what}", flush=True)


class Tries:
    def __init__(self, check):
        self.check, self.failed = check, False

    def tell(self, name, told, wanted):
        if told == wanted:
            print(f"{self.check}: {name}")
            return
        self.failed = True
        print(f"{self.check}: FAILED: {name}\n    wanted: {wanted}\n    told:   {told}")
