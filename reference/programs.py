"""Runs the programs `check` and `plan` and compares what they write with the independent implementation's replies."""
import subprocess
from collections import Counter

from document01 import check_reply, plan_reply


def kind(reply):
    return b" ".join(reply.split()[:2]).decode() if reply.startswith(b"refused") else "result"


class Programs:
    def __init__(self, check, plan):
        self.programs = {"check": (check, check_reply), "plan": (plan, plan_reply)}
        self.seen, self.wrong = Counter(), 0

    def run(self, name, data):
        """Runs the program of that name on the input; answers the expected reply."""
        program, expect = self.programs[name]
        expected = expect(data)
        reply = subprocess.run([program], input=data, stdout=subprocess.PIPE, check=True).stdout
        self.seen[name + " " + kind(expected)] += 1
        if reply != expected:
            self.wrong += 1
            print(f"{name} {data.hex()}: expected {expected[:60]!r}, got {reply[:60]!r}")
        return expected

    def tell(self):
        """Prints how many replies of each kind there were; 1 where one was wrong."""
        print(f"{sum(self.seen.values())} cases, {self.wrong} wrong;", dict(sorted(self.seen.items())))
        return 1 if self.wrong else 0
