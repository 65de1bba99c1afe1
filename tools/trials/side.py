"""Runs functions side by side, each in a process of its own, so that none waits for another."""

import multiprocessing
import signal
import traceback


def send_result(end, function, given):
    """Sends what a function gives, or why it gives nothing. After a SIGTERM it ends what it has begun."""
    signal.signal(signal.SIGTERM, signal.default_int_handler)
    try:
        end.send((function(*given), None))
    except KeyboardInterrupt:
        pass
    except Exception:
        end.send((None, traceback.format_exc()))


class Side:
    """A function running in a process of its own, which ends with this one."""

    def __init__(self, function, *given):
        self.end, end = multiprocessing.Pipe(False)
        self.process = multiprocessing.Process(target=send_result, args=(end, function, given), daemon=True)
        self.process.start()
        end.close()

    def result(self):
        """What the function gives, once it is done."""
        try:
            result, fault = self.end.recv()
        except EOFError:
            raise AssertionError("its process ended") from None
        assert fault is None, fault
        return result

    def stop(self):
        """Ends it, if it isn't done."""
        self.process.terminate()
        self.process.join()
