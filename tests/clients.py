"""The Python client: beside the program, beside servers that say what the program never would, and its shell."""
import clients_dbapi
import clients_fakes
import clients_login
import clients_package
import clients_scripts
import clients_served
import clients_shell
import clients_values
from served import Server

MODULES = (clients_served, clients_values, clients_dbapi, clients_fakes, clients_login, clients_scripts, clients_shell,
    clients_package)
TESTS = tuple(test for module in MODULES for test in module.TESTS)


def played(program, check):
    """Plays the tests. What a test raises is its failure, and the others go on."""
    for test in TESTS:
        try:
            test(program, check)
        except Exception as error:
            check(f"{test.__name__}: without an error", False, error)
        finally:
            Server.stop_all()
