"""What scripts/install and scripts/package are made of.

records      what a build records beside the program: commit, kit, whether it was proved, sha256
words        the words behind `nftrun`, and the files that each needs
helps        what --help of a word says, taken apart
manual       man pages, written from that
completion   completion for bash, zsh and fish, written from that
layout       which files lie where below a prefix
installing   puts them there, and takes them away
debian       the .deb; archive: the tarball
"""
