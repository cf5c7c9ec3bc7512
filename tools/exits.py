"""How the commands tell what is wrong, and with which exit status they end."""
import os, sys, traceback


DONE, REJECTED, FAULTY = 0, 1, 2    # FAULTY for a refusal and for every other fault, so that only a verdict is 1


def say(line):
    print(line, file=sys.stderr, flush=True)


def fail(*lines):
    """Tells what is wrong behind all that was printed, and ends."""
    try:
        sys.stdout.flush()
    except OSError:
        discard_output()
    for line in lines:
        say(line)
    sys.exit(FAULTY)


def discard_output():
    """Has what cannot be written forgotten, so that it is not tried again at the end."""
    os.dup2(os.open(os.devnull, os.O_WRONLY), sys.stdout.fileno())


def run(command, *known):
    """Runs a command and ends with its status, when all that it printed is written. Each of the known errors is reported in its own words."""
    if sys.stdout is None:
        say('standard output is closed')
        sys.exit(FAULTY)
    try:
        status = command() or DONE
        sys.stdout.flush()
    except known as error:
        fail(str(error))
    except OSError as error:
        fail(f'{error.filename or "standard output"}: {error.strerror}')
    except KeyboardInterrupt:
        fail('interrupted')
    except Exception:
        traceback.print_exc()    # a defect of this tool is no verdict
        fail('this is a defect of the tool')
    sys.exit(status)
