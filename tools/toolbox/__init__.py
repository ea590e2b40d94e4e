"""What the commands in the folder above share: captures, packets, box files, rulesets, reports, flows, replays."""
