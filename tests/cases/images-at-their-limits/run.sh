# Images that the trial reads, writes again, checks and runs.
trials=$("$top/build" trials) || exit
"$trials"
