; The host has a change that it can still take back. This routine saves the file with the change.
routine saves public budget 9
        VSAVE end
end:
        RET
