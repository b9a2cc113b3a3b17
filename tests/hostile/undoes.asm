; The host has a change that no commit has kept. This routine reverts the file, so the change is lost.
routine undoes public budget 9
        VREVERT end
end:
        RET
