"""Judges an object that was compiled elsewhere, for a worker of a cluster: the JSON of a task in, that of its result out."""
import json
import os
import sys

sys.path[0] = os.path.dirname(os.path.dirname(os.path.abspath(__file__)))
import scripts

try:
    from c11 import apart
except ModuleNotFoundError as fault:
    json.dump({"fault": scripts.missing(fault), "lacks": True}, sys.stdout)
else:
    json.dump(apart.verdict_on(json.load(sys.stdin)), sys.stdout)
