; each turn pays for all turns of the loop behind it, though that one runs once
routine a public budget 4294967295
        SETK k0 65535
each:   SETK k1 60000
        LOOP k0 each
put:    OUT w0 end
        LOOP k1 put
end:    RET
