"""What checks/callers asks the programs that stand beside `ssh_key`, a file for each program that has one."""
