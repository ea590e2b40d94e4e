"""What tries the page of nftrun page in a real browser."""
