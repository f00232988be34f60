"""Ends a server: opens and closes the sessions that are left of its number."""
import os
import signal
import time

from hugetlb_session import Ended, Session


def ends(port: int, within: float, pid: int | None = None) -> bool:
    """Opens and closes one session after another until the server takes no more: it has then had its number.

    It ends once the others do. Where that has not come after so many seconds, since its workers all have
    sessions that stay open, the process is sent SIGTERM if its number was given. Answers whether the server
    ended by itself.
    """
    tries, count, until = 0, 0, time.monotonic() + within
    while (left := until - time.monotonic()) > 0:
        try:
            with Session.over_socket(port, seconds=left) as session:
                session.end_input()
                # one that waited at the port when the server had its number is cut off
                count += session.wait_for_end()
        except ConnectionRefusedError:
            if tries == 0:
                raise
            print(f"{count} sessions were left; the server takes no more")
            return True
        except (ConnectionResetError, Ended):
            pass
        except TimeoutError:
            break
        tries += 1
    print(f"after {within:g} seconds its workers still hold sessions that stay open; {count} were closed")
    if pid is not None:
        os.kill(pid, signal.SIGTERM)
        print(f"process {pid} was sent SIGTERM: it ends without an audit")
    return False
