; each turn pays for all turns of the loop behind it, though that one runs once
routine a public budget 4294967295
        SETKW k1 w2
each:   SETK k3 60000
        LOOP k1 each
put:    OUT w0 end
        LOOP k3 put
end:    RET
