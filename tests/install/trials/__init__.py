"""What tests/install/test-install tries.

trial      where faults are told, and commands run
words      what each word behind nftrun takes, against its help, man page and completion
prefix     installing below a prefix, and removing
minutes    README's first ten minutes, from what was installed
packages   the .deb and the tarball
"""
