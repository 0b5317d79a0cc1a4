"""Which Python a tool goes on in: Debian's packages are for the system's own."""
import os
import sys
import unittest
from unittest import mock

from support import Folder

from bookpages import faults


class ThePackages(Folder):
    def started(self, status, modules):
        """What is started in the place of this Python, beside a system's one that ends with that status."""
        script = self.write("python", f"#!/bin/sh\nexit {status}\n")
        os.chmod(script, 0o755)
        with mock.patch.object(faults, "SYSTEM_PYTHON", script), mock.patch("os.execv") as execv:
            faults.go_on_where_packages_are(modules)
        return execv.call_args_list

    def test_a_missing_package_is_sought_in_the_systems_python(self):
        script = self.path("python")
        self.assertEqual(self.started(0, ("no_such_module",)), [mock.call(script, [script, *sys.argv])])

    def test_where_it_is_missing_there_too_this_python_goes_on_and_says_so(self):
        self.assertEqual(self.started(1, ("no_such_module",)), [])

    def test_where_nothing_is_missing_this_python_goes_on(self):
        self.assertEqual(self.started(0, ("json", "os")), [])


if __name__ == "__main__":
    unittest.main()
