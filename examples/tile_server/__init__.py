"""An example of a map server that has its tiles judged before it sends them. README.md beside this file says how it is run."""
