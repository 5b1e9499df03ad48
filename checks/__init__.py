"""What tests this repository from outside of the kit. checks/README.md lists every check, and `python3 -m checks NAME` runs one."""
