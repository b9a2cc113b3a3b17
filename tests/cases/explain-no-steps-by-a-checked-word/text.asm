; each turn pays for all turns of the loop behind it, though that one runs once
routine a public budget 4294967295
        CHK w2 60000 end
        SETKW k1 w2
each:   SETK k3 65535
        LOOP k1 each
put:    OUT w0 end
        LOOP k3 put
end:    RET
