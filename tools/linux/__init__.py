"""Takes a capture through the kernel's nf_tables, and compares with nftrun."""
