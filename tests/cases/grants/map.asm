; Takes the map block away for good. The public routine only calls.
routine take budget 9
    VGETMAP w0
    VFREE w0 done
    VSAVE done
done:
    RET
routine tidy public budget 20
    CALL take
    OUT w0 tidied
tidied:
    RET
