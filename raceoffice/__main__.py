"""Runs the race office as `python3 -m raceoffice`, and as the command of an installation."""
import sys


def main() -> int:
    """Does what the command line asks for; the status. Ctrl-C ends it quietly also while the package is being loaded."""
    try:
        from raceoffice import interruption
        interruption.end_quietly()
        from raceoffice import cli
        return cli.main()
    except KeyboardInterrupt:
        # What `interruption` has, which may not be there yet
        return 130
    except MemoryError:
        pass
    # What took it is gone by now.
    print("this computer gives no more memory", file=sys.stderr)
    return 2


if __name__ == "__main__":
    sys.exit(main())
