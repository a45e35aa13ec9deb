"""The lines of `check`."""


def told(what, why=None):
    print(f"failed {what}: {why}" if why else f"passed {what}", flush=True)


def skipped(what, why):
    print(f"skipped {what}: {why}", flush=True)
